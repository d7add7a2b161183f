# The package fkv. The target fkv::fkv is the shared library, and fkv::fkv_static the archive.
include(CMakeFindDependencyMacro)
find_dependency(Threads)
get_filename_component(FKV_PREFIX "${CMAKE_CURRENT_LIST_DIR}/../../.." ABSOLUTE)
if(NOT TARGET fkv::fkv)
    add_library(fkv::fkv SHARED IMPORTED)
    set_target_properties(fkv::fkv PROPERTIES
        IMPORTED_LOCATION "${FKV_PREFIX}/lib/@SONAME@"
        IMPORTED_SONAME "@SONAME@"
        INTERFACE_INCLUDE_DIRECTORIES "${FKV_PREFIX}/include")
    add_library(fkv::fkv_static STATIC IMPORTED)
    set_target_properties(fkv::fkv_static PROPERTIES
        IMPORTED_LOCATION "${FKV_PREFIX}/lib/libfkv.a"
        INTERFACE_INCLUDE_DIRECTORIES "${FKV_PREFIX}/include"
        INTERFACE_LINK_LIBRARIES Threads::Threads)
endif()
