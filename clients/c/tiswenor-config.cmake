# What find_package(tiswenor) reads: the libraries, and the one that they stand on.
include(CMakeFindDependencyMacro)
set(THREADS_PREFER_PTHREAD_FLAG ON)
find_dependency(Threads)
include(${CMAKE_CURRENT_LIST_DIR}/tiswenor-targets.cmake)
