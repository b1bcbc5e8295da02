/* To be preloaded: each thread gets ROOM more bytes of storage of its own. Those of a thread that is started lie above
   its stack, which so begins as many bytes lower, in steps of 64. */
_Thread_local char thread_storage[ROOM];
