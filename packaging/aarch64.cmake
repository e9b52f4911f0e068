# CMake's toolchain file for aarch64 Linux: the Makefile passes it as --toolchain to compile C for that on x86-64.
set(CMAKE_SYSTEM_NAME Linux)
set(CMAKE_SYSTEM_PROCESSOR aarch64)
set(CMAKE_C_COMPILER aarch64-linux-gnu-gcc)
