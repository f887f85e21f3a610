# find_package(peer_table) gives the target peer_table::peer_table: the archive and its headers, beside which this file stands.
if(NOT TARGET peer_table::peer_table)
  get_filename_component(peer_table_prefix "${CMAKE_CURRENT_LIST_DIR}/../../.." ABSOLUTE)
  add_library(peer_table::peer_table STATIC IMPORTED)
  set_target_properties(peer_table::peer_table PROPERTIES
    IMPORTED_LOCATION "${peer_table_prefix}/lib/libpeer_table.a"
    INTERFACE_INCLUDE_DIRECTORIES "${peer_table_prefix}/include")
endif()
