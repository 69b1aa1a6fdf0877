# The target nolpigat::nolpigat: the archive with its header. Both are found from where this file is, so that the
# folder may be moved.
get_filename_component(nolpigat_folder "${CMAKE_CURRENT_LIST_DIR}" REALPATH)
get_filename_component(nolpigat_prefix "${nolpigat_folder}/../../.." ABSOLUTE)
if(NOT TARGET nolpigat::nolpigat)
  add_library(nolpigat::nolpigat STATIC IMPORTED)
  set_target_properties(nolpigat::nolpigat PROPERTIES
    IMPORTED_LOCATION "${nolpigat_prefix}/lib/libnolpigat.a"
    INTERFACE_INCLUDE_DIRECTORIES "${nolpigat_prefix}/include")
endif()
unset(nolpigat_folder)
unset(nolpigat_prefix)
