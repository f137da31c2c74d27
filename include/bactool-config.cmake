# SPDX-License-Identifier: Apache-2.0 OR MIT
# What find_package(bactool) reads. It makes two targets, each with the folder of the headers:
#
#   bactool::bactool         the shared library
#   bactool::bactool_static  the archive
#
# Both are found from where this file is, so an installed tree may be moved as a whole.

# A symbolic link on the way, such as /lib in the place of /usr/lib, would lead to another prefix.
get_filename_component(_bactool_here "${CMAKE_CURRENT_LIST_DIR}" REALPATH)
get_filename_component(_bactool_prefix "${_bactool_here}/../../.." ABSOLUTE)

if(NOT TARGET bactool::bactool)
  add_library(bactool::bactool SHARED IMPORTED)
  set_target_properties(bactool::bactool PROPERTIES
    IMPORTED_LOCATION "${_bactool_prefix}/lib/libbactool.so.1"
    IMPORTED_SONAME "libbactool.so.1"
    INTERFACE_INCLUDE_DIRECTORIES "${_bactool_prefix}/include")
  add_library(bactool::bactool_static STATIC IMPORTED)
  set_target_properties(bactool::bactool_static PROPERTIES
    IMPORTED_LOCATION "${_bactool_prefix}/lib/libbactool.a"
    INTERFACE_INCLUDE_DIRECTORIES "${_bactool_prefix}/include")
endif()

unset(_bactool_here)
unset(_bactool_prefix)
