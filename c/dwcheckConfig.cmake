# find_package(dwcheck 2) gives the targets dwcheck::dwcheck, the archive that has everything, and
# dwcheck::dl, which walks stacks of the running process; and the same as shared libraries,
# dwcheck::shared and dwcheck::dl_shared. A shared library of the user's that has an archive doesn't
# export its names. It works wherever the folder that has lib/ and include/ is.
get_filename_component(_dwcheck_lib "${CMAKE_CURRENT_LIST_DIR}/../.." REALPATH)
get_filename_component(_dwcheck_prefix "${_dwcheck_lib}/.." ABSOLUTE)
if(NOT EXISTS "${_dwcheck_prefix}/include/dwcheck.h") # lib/x86_64-linux-gnu of Debian
  get_filename_component(_dwcheck_prefix "${_dwcheck_lib}/../.." ABSOLUTE)
endif()
if(NOT TARGET dwcheck::dwcheck)
  add_library(dwcheck::dwcheck STATIC IMPORTED)
  set_target_properties(dwcheck::dwcheck PROPERTIES
    IMPORTED_LOCATION "${_dwcheck_lib}/libdwcheck.a"
    INTERFACE_LINK_OPTIONS "-Wl,--exclude-libs,libdwcheck.a:libdwcheck-dl.a"
    INTERFACE_INCLUDE_DIRECTORIES "${_dwcheck_prefix}/include")
  add_library(dwcheck::dl STATIC IMPORTED)
  set_target_properties(dwcheck::dl PROPERTIES
    IMPORTED_LOCATION "${_dwcheck_lib}/libdwcheck-dl.a"
    INTERFACE_LINK_LIBRARIES "dwcheck::dwcheck;${CMAKE_DL_LIBS};pthread")
endif()
if(NOT TARGET dwcheck::shared AND EXISTS "${_dwcheck_lib}/libdwcheck.so")
  add_library(dwcheck::shared SHARED IMPORTED)
  set_target_properties(dwcheck::shared PROPERTIES
    IMPORTED_LOCATION "${_dwcheck_lib}/libdwcheck.so"
    INTERFACE_INCLUDE_DIRECTORIES "${_dwcheck_prefix}/include")
  add_library(dwcheck::dl_shared SHARED IMPORTED)
  set_target_properties(dwcheck::dl_shared PROPERTIES
    IMPORTED_LOCATION "${_dwcheck_lib}/libdwcheck-dl.so"
    INTERFACE_LINK_LIBRARIES "dwcheck::shared")
endif()
unset(_dwcheck_lib)
unset(_dwcheck_prefix)
