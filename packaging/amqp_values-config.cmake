# For find_package: the targets of the installed library.
include("${CMAKE_CURRENT_LIST_DIR}/amqp_values-targets.cmake")
