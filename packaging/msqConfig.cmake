# The targets msq::msq, the archive, and msq::shared, the shared library, with the folder of their headers.
include(CMakeFindDependencyMacro)
set(THREADS_PREFER_PTHREAD_FLAG ON)
find_dependency(Threads)
get_filename_component(msq_prefix "${CMAKE_CURRENT_LIST_DIR}/../../.." ABSOLUTE)
if(NOT TARGET msq::msq)
    add_library(msq::msq STATIC IMPORTED)
    set_target_properties(msq::msq PROPERTIES
        IMPORTED_LOCATION "${msq_prefix}/lib/libmsq.a"
        INTERFACE_INCLUDE_DIRECTORIES "${msq_prefix}/include"
        INTERFACE_LINK_LIBRARIES Threads::Threads)
    add_library(msq::shared SHARED IMPORTED)
    set_target_properties(msq::shared PROPERTIES
        IMPORTED_LOCATION "${msq_prefix}/lib/libmsq.so.@VERSION@"
        IMPORTED_SONAME "libmsq.so.@MAJOR@.@MINOR@"
        INTERFACE_INCLUDE_DIRECTORIES "${msq_prefix}/include"
        INTERFACE_LINK_LIBRARIES Threads::Threads)
endif()
unset(msq_prefix)
