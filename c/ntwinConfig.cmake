# SPDX-License-Identifier: MIT OR Apache-2.0
# find_package(ntwin) makes two targets: ntwin::ntwin, the shared library, and ntwin::static. ntwin_PROVED says whether their dispatcher is proved.
# A third, ntwin::port, is for sources that are written for Windows: it defines _WIN32, and the keywords of Microsoft's compilers before all headers.
set(ntwin_PROVED @IS_PROVED@)
get_filename_component(_ntwin_prefix "${CMAKE_CURRENT_LIST_DIR}/../../.." ABSOLUTE)
find_package(Threads REQUIRED)
foreach(_ntwin_target IN ITEMS ntwin static)
    if(NOT TARGET ntwin::${_ntwin_target})
        add_library(ntwin::${_ntwin_target} UNKNOWN IMPORTED)
        set_target_properties(ntwin::${_ntwin_target} PROPERTIES
            INTERFACE_INCLUDE_DIRECTORIES "${_ntwin_prefix}/include/ntwin;${_ntwin_prefix}/include/ntwin/win"
            INTERFACE_SYSTEM_INCLUDE_DIRECTORIES "${_ntwin_prefix}/include/ntwin;${_ntwin_prefix}/include/ntwin/win"
            INTERFACE_LINK_LIBRARIES Threads::Threads)
    endif()
endforeach()
if(NOT TARGET ntwin::port)
    add_library(ntwin::port INTERFACE IMPORTED)
    set_target_properties(ntwin::port PROPERTIES
        INTERFACE_COMPILE_DEFINITIONS _WIN32
        INTERFACE_COMPILE_OPTIONS "SHELL:-include ${_ntwin_prefix}/include/ntwin/win/ntwin_keywords.h")
endif()
set_target_properties(ntwin::ntwin PROPERTIES IMPORTED_LOCATION "${_ntwin_prefix}/lib/libntwin.so")
set_target_properties(ntwin::static PROPERTIES IMPORTED_LOCATION "${_ntwin_prefix}/lib/libntwin.a"
    INTERFACE_LINK_LIBRARIES "Threads::Threads;${CMAKE_DL_LIBS}") # (a glibc before 2.34 has dlopen in a library of its own)
