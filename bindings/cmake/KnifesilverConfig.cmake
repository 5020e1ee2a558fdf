# find_package(Knifesilver CONFIG REQUIRED) gives the targets Knifesilver::Knifesilver, the static archive, and,
# where it is there, Knifesilver::Shared. The header knifesilver.hpp is that of C++17.
get_filename_component(_knifesilver_prefix "${CMAKE_CURRENT_LIST_DIR}/@TO_PREFIX@" ABSOLUTE)
if(NOT TARGET Knifesilver::Knifesilver)
  add_library(Knifesilver::Knifesilver STATIC IMPORTED)
  set_target_properties(Knifesilver::Knifesilver PROPERTIES
    IMPORTED_LOCATION "${_knifesilver_prefix}/@LIB@/libknifesilver.a"
    INTERFACE_INCLUDE_DIRECTORIES "${_knifesilver_prefix}/include")
endif()
set(_knifesilver_shared "${_knifesilver_prefix}/@LIB@/@SONAME@")
if(EXISTS "${_knifesilver_shared}" AND NOT TARGET Knifesilver::Shared)
  add_library(Knifesilver::Shared SHARED IMPORTED)
  set_target_properties(Knifesilver::Shared PROPERTIES
    IMPORTED_LOCATION "${_knifesilver_shared}"
    IMPORTED_SONAME "@SONAME@"
    INTERFACE_INCLUDE_DIRECTORIES "${_knifesilver_prefix}/include")
endif()
unset(_knifesilver_prefix)
unset(_knifesilver_shared)
