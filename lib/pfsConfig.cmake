# find_package(pfs) defines the targets pfs::pfs, the shared library, and pfs::pfs_static.
get_filename_component(pfs_folder "${CMAKE_CURRENT_LIST_DIR}/../.." ABSOLUTE)
find_path(pfs_INCLUDE_DIR pfs.h HINTS "${pfs_folder}/../include" "${pfs_folder}/../../include" NO_DEFAULT_PATH)
mark_as_advanced(pfs_INCLUDE_DIR)
foreach(pfs_kind "pfs;SHARED;libpfs.so.1" "pfs_static;STATIC;libpfs.a")
    list(GET pfs_kind 0 pfs_target)
    list(GET pfs_kind 1 pfs_type)
    list(GET pfs_kind 2 pfs_file)
    if(NOT TARGET pfs::${pfs_target})
        add_library(pfs::${pfs_target} ${pfs_type} IMPORTED)
        set_target_properties(pfs::${pfs_target} PROPERTIES
            IMPORTED_LOCATION "${pfs_folder}/${pfs_file}" INTERFACE_INCLUDE_DIRECTORIES "${pfs_INCLUDE_DIR}")
    endif()
endforeach()
