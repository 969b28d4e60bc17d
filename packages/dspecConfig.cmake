# The library for CMake: dspec::dspec is the archive, dspec::shared the shared object where it is installed. Both bring their headers and threads.
#
#     find_package(dspec 0.1 REQUIRED)
#     target_link_libraries(app PRIVATE dspec::dspec)
include(CMakeFindDependencyMacro)
set(THREADS_PREFER_PTHREAD_FLAG ON)
find_dependency(Threads)

get_filename_component(dspec_LIBRARY_DIR "${CMAKE_CURRENT_LIST_DIR}/../.." ABSOLUTE)
get_filename_component(dspec_INCLUDE_DIR "${dspec_LIBRARY_DIR}/@INCLUDE@" ABSOLUTE)

if(NOT TARGET dspec::dspec)
    add_library(dspec::dspec STATIC IMPORTED)
    set_target_properties(dspec::dspec PROPERTIES
        IMPORTED_LOCATION "${dspec_LIBRARY_DIR}/libdspec.a"
        INTERFACE_INCLUDE_DIRECTORIES "${dspec_INCLUDE_DIR}"
        INTERFACE_LINK_LIBRARIES Threads::Threads)
endif()

if(NOT TARGET dspec::shared AND EXISTS "${dspec_LIBRARY_DIR}/libdspec.so")
    add_library(dspec::shared SHARED IMPORTED)
    set_target_properties(dspec::shared PROPERTIES
        IMPORTED_LOCATION "${dspec_LIBRARY_DIR}/libdspec.so"
        INTERFACE_INCLUDE_DIRECTORIES "${dspec_INCLUDE_DIR}"
        INTERFACE_LINK_LIBRARIES Threads::Threads)
endif()
