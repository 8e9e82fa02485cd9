# find_package(ip_wire) makes the targets ip_wire::ip_wire, the shared library, and ip_wire::ip_wire_static.
get_filename_component(_ip_wire_folder "${CMAKE_CURRENT_LIST_FILE}" REALPATH)
get_filename_component(_ip_wire_folder "${_ip_wire_folder}" DIRECTORY)
get_filename_component(_ip_wire_libraries "${_ip_wire_folder}/../.." ABSOLUTE)
get_filename_component(_ip_wire_include "${_ip_wire_folder}/@INCLUDE@" ABSOLUTE)

if(NOT TARGET ip_wire::ip_wire)
    add_library(ip_wire::ip_wire SHARED IMPORTED)
    set_target_properties(ip_wire::ip_wire PROPERTIES
        IMPORTED_LOCATION "${_ip_wire_libraries}/libip_wire.so.@VERSION@"
        IMPORTED_SONAME "libip_wire.so.@SONAME@"
        INTERFACE_INCLUDE_DIRECTORIES "${_ip_wire_include}")
    add_library(ip_wire::ip_wire_static STATIC IMPORTED)
    set_target_properties(ip_wire::ip_wire_static PROPERTIES
        IMPORTED_LOCATION "${_ip_wire_libraries}/libip_wire.a"
        INTERFACE_INCLUDE_DIRECTORIES "${_ip_wire_include}")
endif()

unset(_ip_wire_folder)
unset(_ip_wire_libraries)
unset(_ip_wire_include)
