# For find_package(aeadkit): the targets aeadkit::aeadkit, the shared library, and aeadkit::aeadkit_static, the archive.
get_filename_component(aeadkit_prefix "${CMAKE_CURRENT_LIST_DIR}/../../.." ABSOLUTE)
if(NOT TARGET aeadkit::aeadkit)
  add_library(aeadkit::aeadkit SHARED IMPORTED)
  set_target_properties(aeadkit::aeadkit PROPERTIES
    IMPORTED_LOCATION "${aeadkit_prefix}/lib/libaeadkit.so"
    INTERFACE_INCLUDE_DIRECTORIES "${aeadkit_prefix}/include")
  add_library(aeadkit::aeadkit_static STATIC IMPORTED)
  set_target_properties(aeadkit::aeadkit_static PROPERTIES
    IMPORTED_LOCATION "${aeadkit_prefix}/lib/libaeadkit.a"
    INTERFACE_INCLUDE_DIRECTORIES "${aeadkit_prefix}/include")
endif()
unset(aeadkit_prefix)
