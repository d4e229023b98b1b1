# kazdrin_add_driver(NAME SOURCE.. [EXPLORE | SERVE] [SANITIZE WORDS] [USER SOURCE..] [DEFINES NAME..] [INCLUDES FOLDER..] [REQUESTS FILE..])
#
#   builds the program NAME of a driver, which is loaded by the name of its first file. It is built again when a source changes, a header that one reads, or Kazdrin itself.
#   EXPLORE     a program that runs a scenario under every schedule; SERVE: a server of the driver
#   SANITIZE    under these sanitizers of the compiler: address,undefined or thread
#   USER        programs that work with the driver, a file each: `start` in a file of requests runs one by its name
#   DEFINES     macros, as A or A=1; INCLUDES: folders of headers
#   REQUESTS    each file of requests, or scenario, is a test, NAME.FILE, with a report for JUnit beside the program; NAME-sources has the sources for an editor's
#               compile_commands.json (CMAKE_EXPORT_COMPILE_COMMANDS)
#
# kazdrin_add_test(TEST NAME WORD..) runs that program with those words, a file of requests above all, as a test.
get_filename_component(KAZDRIN_SHARE "${CMAKE_CURRENT_LIST_DIR}/../../../share/kazdrin" ABSOLUTE)

function(kazdrin_whole_paths result)
    set(paths)
    foreach(path ${ARGN})
        get_filename_component(whole "${path}" ABSOLUTE BASE_DIR "${CMAKE_CURRENT_SOURCE_DIR}")
        list(APPEND paths "${whole}")
    endforeach()
    set(${result} "${paths}" PARENT_SCOPE)
endfunction()

# The sources with the compiler's words, which nothing builds: for an editor.
function(kazdrin_add_sources name words)
    execute_process(COMMAND "${KAZDRIN_SHARE}/c/build.sh" ${words} OUTPUT_VARIABLE flags RESULT_VARIABLE failed)
    if(failed)
        message(FATAL_ERROR "${KAZDRIN_SHARE}/c/build.sh ${words} fails")
    endif()
    string(REGEX REPLACE "\n$" "" flags "${flags}")
    string(REPLACE "-include\n" "SHELL:-include " flags "${flags}")
    string(REPLACE "\n" ";" flags "${flags}")
    add_library("${name}" OBJECT EXCLUDE_FROM_ALL ${ARGN})
    target_compile_options("${name}" PRIVATE ${flags})
endfunction()

function(kazdrin_add_driver name)
    cmake_parse_arguments(driver "EXPLORE;SERVE" "SANITIZE" "USER;DEFINES;INCLUDES;REQUESTS" ${ARGN})
    kazdrin_whole_paths(sources ${driver_UNPARSED_ARGUMENTS})
    kazdrin_whole_paths(programs ${driver_USER})
    kazdrin_whole_paths(folders ${driver_INCLUDES})
    set(words)
    foreach(define ${driver_DEFINES})
        list(APPEND words "-D${define}")
    endforeach()
    foreach(folder ${folders})
        list(APPEND words "-I${folder}")
    endforeach()
    kazdrin_add_sources("${name}-sources" "--flags;${words}" ${sources})
    set(users)
    foreach(program ${programs})
        list(APPEND users --user "${program}")
    endforeach()
    if(programs)
        kazdrin_add_sources("${name}-user-sources" "--flags=user;${words}" ${programs})
    endif()
    if(driver_EXPLORE)
        list(APPEND words --explore)
    elseif(driver_SERVE)
        list(APPEND words --serve)
    endif()
    if(driver_SANITIZE)
        list(APPEND words "--sanitize=${driver_SANITIZE}")
    endif()
    set(program "${CMAKE_CURRENT_BINARY_DIR}/${name}")
    set(needs)
    if(CMAKE_GENERATOR MATCHES "Ninja" OR NOT CMAKE_VERSION VERSION_LESS 3.20)
        set(needs DEPFILE "${program}.d")
        list(APPEND words --depfile "${program}.d")
    endif()
    add_custom_command(
        OUTPUT "${program}"
        COMMAND "${CMAKE_COMMAND}" -E remove -f "${program}" # so that no test is passed by an old one behind a build that failed
        COMMAND "${CMAKE_COMMAND}" -E env "CC=${CMAKE_C_COMPILER}" "${KAZDRIN_SHARE}/c/build.sh" ${words} "${program}" --driver ${sources} ${users}
        DEPENDS ${sources} ${programs}
        ${needs}
        VERBATIM)
    add_custom_target("kazdrin-${name}" ALL DEPENDS "${program}")
    if(NOT needs)
        message(WARNING "CMake before 3.20 doesn't see a driver's headers but with Ninja: ${name} is built at each build")
        set_source_files_properties("${program}" PROPERTIES SYMBOLIC TRUE)
    endif()
    foreach(file ${driver_REQUESTS})
        get_filename_component(stem "${file}" NAME_WE)
        if(driver_EXPLORE)
            kazdrin_add_test("${name}.${stem}" "${name}" "${file}")
        else()
            kazdrin_add_test("${name}.${stem}" "${name}" --quiet --junit "${CMAKE_CURRENT_BINARY_DIR}/${name}.${stem}.xml" "${file}")
        endif()
    endforeach()
endfunction()

function(kazdrin_add_test test name)
    set(words)
    foreach(word ${ARGN})
        if(EXISTS "${CMAKE_CURRENT_SOURCE_DIR}/${word}")
            set(word "${CMAKE_CURRENT_SOURCE_DIR}/${word}")
        endif()
        list(APPEND words "${word}")
    endforeach()
    add_test(NAME "${test}" COMMAND "${CMAKE_CURRENT_BINARY_DIR}/${name}" ${words})
endfunction()
