# What examples/expressions.c lists of FILE. Each expression stands there twice: in a block, and put together from
# libdw's operations. All FILES have as many, and together TOTAL in blocks.
execute_process(COMMAND ${COMPARE} --list ${FILE} OUTPUT_VARIABLE listed)
string(LENGTH "${listed}" length)
math(EXPR half "${length} / 2")
string(SUBSTRING "${listed}" 0 ${half} first)
string(SUBSTRING "${listed}" ${half} -1 second)
string(REGEX MATCHALL "\n" lines "${first}")
list(LENGTH lines count)
math(EXPR count "${count} * ${FILES}")
if(NOT first STREQUAL second OR NOT count EQUAL TOTAL)
  message(FATAL_ERROR "${count} expressions in blocks of all files, and not ${TOTAL}, or the halves differ")
endif()
