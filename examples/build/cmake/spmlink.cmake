# spmlink_relink(TARGET BOARD FILE INPUT FILE [SAVES PERCENT])
#
# Relinks the executable TARGET for a board, measured on an input: TARGET.new.elf, TARGET.cert and TARGET.report in the build
# folder. It is done again where the executable, the board or the input has changed. With SAVES the build fails where less
# than PERCENT of the energy before is saved.

find_program(SPMLINK spmlink REQUIRED)

function(spmlink_relink target)
    cmake_parse_arguments(PARSE_ARGV 1 given "" "BOARD;INPUT;SAVES" "")
    foreach(key BOARD INPUT)
        if(NOT given_${key})
            message(FATAL_ERROR "spmlink_relink: ${key} is missing")
        endif()
    endforeach()
    get_filename_component(board "${given_BOARD}" ABSOLUTE)
    get_filename_component(input "${given_INPUT}" ABSOLUTE)
    set(stem "${CMAKE_CURRENT_BINARY_DIR}/${target}")
    set(results "${stem}.new.elf" "${stem}.cert" "${stem}.report")
    add_custom_command(
        OUTPUT ${results}
        COMMAND "${CMAKE_CURRENT_FUNCTION_LIST_DIR}/step" "${SPMLINK}" $<TARGET_FILE:${target}> "${board}" "${input}" ${results}
        DEPENDS ${target} "${board}" "${input}"
        COMMENT "Relinking ${target}"
        VERBATIM)
    add_custom_target(${target}_relinked ALL DEPENDS ${results})
    if(DEFINED given_SAVES)
        # The report is looked at each time, so also where the number alone has changed.
        add_custom_target(${target}_saves ALL
            COMMAND "${CMAKE_CURRENT_FUNCTION_LIST_DIR}/floor" "${stem}.report" "${given_SAVES}"
            VERBATIM)
        add_dependencies(${target}_saves ${target}_relinked)
    endif()
endfunction()
