# Runs a program, which has to end with STATUS, and to print what the regular expression OUTPUT matches.
execute_process(COMMAND ${COMMAND} OUTPUT_VARIABLE output ERROR_VARIABLE error RESULT_VARIABLE status)
message("${output}${error}")
if(NOT "${output}${error}" MATCHES "^${OUTPUT}$" OR NOT status STREQUAL STATUS)
  message(FATAL_ERROR "status ${status}, and not ${STATUS}, or not the output:\n${OUTPUT}")
endif()
