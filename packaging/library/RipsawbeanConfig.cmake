# find_package(Ripsawbean) gives Ripsawbean::ripsawbean, the shared library, and Ripsawbean::static. A release for a
# processor that has the archive alone gives the second.
get_filename_component(_ripsawbean_lib "${CMAKE_CURRENT_LIST_DIR}/../.." ABSOLUTE)
find_path(_ripsawbean_include ripsawbean.h NO_CACHE NO_DEFAULT_PATH
    PATHS "${_ripsawbean_lib}/../include" "${_ripsawbean_lib}/../../include")
foreach(_ripsawbean_kind IN ITEMS "ripsawbean;SHARED;so" "static;STATIC;a")
    list(GET _ripsawbean_kind 0 _ripsawbean_name)
    list(GET _ripsawbean_kind 1 _ripsawbean_type)
    list(GET _ripsawbean_kind 2 _ripsawbean_end)
    set(_ripsawbean_file "${_ripsawbean_lib}/libripsawbean.${_ripsawbean_end}")
    if(EXISTS "${_ripsawbean_file}" AND NOT TARGET Ripsawbean::${_ripsawbean_name})
        add_library(Ripsawbean::${_ripsawbean_name} ${_ripsawbean_type} IMPORTED)
        set_target_properties(Ripsawbean::${_ripsawbean_name} PROPERTIES
            IMPORTED_LOCATION "${_ripsawbean_file}"
            INTERFACE_INCLUDE_DIRECTORIES "${_ripsawbean_include}")
    endif()
endforeach()
