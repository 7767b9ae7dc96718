/* The calls of peer.c under names of their own, for a program that has the library's too. */
#define jenturik_fresh peer_fresh
#define jenturik_load peer_load
#define jenturik_look peer_look
#define jenturik_in_use peer_in_use
#define jenturik_free_count peer_free_count
#define jenturik_link peer_link
#define jenturik_shade peer_shade
#define jenturik_take peer_take
#define jenturik_collect peer_collect
#define jenturik_collect_many peer_collect_many
#define jenturik_schedule peer_schedule
#include "peer.c"
