# For find_package(blist): the target blist::blist, found from where this file stands.
get_filename_component(BLIST_PREFIX "${CMAKE_CURRENT_LIST_DIR}/../../.." ABSOLUTE)
if(NOT TARGET blist::blist)
    add_library(blist::blist STATIC IMPORTED)
    set_target_properties(blist::blist PROPERTIES
        IMPORTED_LOCATION "${BLIST_PREFIX}/lib/libblist.a"
        INTERFACE_INCLUDE_DIRECTORIES "${BLIST_PREFIX}/include")
endif()
