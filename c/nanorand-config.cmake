# What find_package(nanorand) defines: the targets nanorand::static and nanorand::shared.
# The folder that has lib. If lib is a link and the headers are not beside it, they are beside the folder of the link.
get_filename_component(nanorand_prefix "${CMAKE_CURRENT_LIST_DIR}/../../.." ABSOLUTE)
if(NOT EXISTS "${nanorand_prefix}/include/nanorand.h")
    get_filename_component(nanorand_prefix "${CMAKE_CURRENT_LIST_FILE}" REALPATH)
    get_filename_component(nanorand_prefix "${nanorand_prefix}/../../../.." ABSOLUTE)
endif()

if(NOT TARGET nanorand::static)
    add_library(nanorand::static STATIC IMPORTED)
    set_target_properties(nanorand::static PROPERTIES
        INTERFACE_INCLUDE_DIRECTORIES "${nanorand_prefix}/include"
        IMPORTED_LOCATION "${nanorand_prefix}/lib/libnanorand.a")
    add_library(nanorand::shared SHARED IMPORTED)
    set_target_properties(nanorand::shared PROPERTIES
        INTERFACE_INCLUDE_DIRECTORIES "${nanorand_prefix}/include"
        IMPORTED_LOCATION "${nanorand_prefix}/lib/libnanorand.so.1"
        IMPORTED_SONAME libnanorand.so.1)
endif()

unset(nanorand_prefix)
