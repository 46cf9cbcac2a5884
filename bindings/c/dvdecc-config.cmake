# For find_package(dvdecc): the targets dvdecc::dvdecc, which is the shared library, and dvdecc::static.
get_filename_component(_dvdecc_libdir "${CMAKE_CURRENT_LIST_DIR}/@cmake_libdir@" ABSOLUTE)
get_filename_component(_dvdecc_includedir "${CMAKE_CURRENT_LIST_DIR}/@cmake_includedir@" ABSOLUTE)
if(NOT TARGET dvdecc::dvdecc)
  add_library(dvdecc::dvdecc SHARED IMPORTED)
  set_target_properties(dvdecc::dvdecc PROPERTIES
    IMPORTED_LOCATION "${_dvdecc_libdir}/libdvdecc.so.0.0.0"
    IMPORTED_SONAME "libdvdecc.so.0"
    INTERFACE_INCLUDE_DIRECTORIES "${_dvdecc_includedir}")
  add_library(dvdecc::static STATIC IMPORTED)
  set_target_properties(dvdecc::static PROPERTIES
    IMPORTED_LOCATION "${_dvdecc_libdir}/libdvdecc.a"
    INTERFACE_INCLUDE_DIRECTORIES "${_dvdecc_includedir}")
endif()
unset(_dvdecc_libdir)
unset(_dvdecc_includedir)
