# What find_package(pdbmerge) gives: the target pdbmerge::pdbmerge, which is the shared library, and the target
# pdbmerge::static. This file lies in cmake/pdbmerge/ in the folder of the libraries.
get_filename_component(pdbmerge_libraries "${CMAKE_CURRENT_LIST_DIR}/../.." ABSOLUTE)
get_filename_component(pdbmerge_headers "${pdbmerge_libraries}/../../include" ABSOLUTE)

if(NOT TARGET pdbmerge::pdbmerge)
    add_library(pdbmerge::pdbmerge SHARED IMPORTED)
    set_target_properties(pdbmerge::pdbmerge PROPERTIES
        IMPORTED_LOCATION "${pdbmerge_libraries}/libpdbmerge.so.1"
        IMPORTED_SONAME "libpdbmerge.so.1"
        INTERFACE_INCLUDE_DIRECTORIES "${pdbmerge_headers}")

    add_library(pdbmerge::static STATIC IMPORTED)
    set_target_properties(pdbmerge::static PROPERTIES
        IMPORTED_LOCATION "${pdbmerge_libraries}/libpdbmerge.a"
        INTERFACE_INCLUDE_DIRECTORIES "${pdbmerge_headers}")
endif()

unset(pdbmerge_libraries)
unset(pdbmerge_headers)
