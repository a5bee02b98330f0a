# find_package(ionex) gives two targets: ionex::ionex, the archive, and ionex::shared, the shared library where it is installed.
# This file stands in PREFIX/lib/cmake/ionex.
get_filename_component(_ionex_prefix "${CMAKE_CURRENT_LIST_DIR}/../../.." ABSOLUTE)

if(NOT TARGET ionex::ionex)
  add_library(ionex::ionex STATIC IMPORTED)
  set_target_properties(ionex::ionex PROPERTIES
    IMPORTED_LOCATION "${_ionex_prefix}/lib/libionex.a"
    INTERFACE_INCLUDE_DIRECTORIES "${_ionex_prefix}/include")
endif()

if(NOT TARGET ionex::shared AND EXISTS "${_ionex_prefix}/lib/libionex.so")
  add_library(ionex::shared SHARED IMPORTED)
  set_target_properties(ionex::shared PROPERTIES
    IMPORTED_LOCATION "${_ionex_prefix}/lib/libionex.so"
    IMPORTED_SONAME "libionex.so.1"
    INTERFACE_INCLUDE_DIRECTORIES "${_ionex_prefix}/include")
endif()

unset(_ionex_prefix)
