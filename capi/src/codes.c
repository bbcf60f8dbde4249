/* Names of codes, and the version. */
#include "../clsm.h"

const char *clsm_version(void) { return CLSM_VERSION; }

const char *clsm_strerror(int code) {
    switch (code) {
    case CLSM_OK: return "ok";
    case CLSM_NOT_FOUND: return "not found";
    case CLSM_KEPT: return "kept: the key or a condition has another value";
    case CLSM_DONE: return "done: no row is left";
    case CLSM_IDLE: return "idle: nothing was written since the last merge";
    case CLSM_FULL: return "epoch full: a merge must begin first";
    case CLSM_BUSY: return "busy: another thread has the lock of writers";
    case CLSM_RACED: return "raced: another write was faster";
    case CLSM_OVERTAKEN: return "overtaken: a reader cancelled the write";
    case CLSM_PINNED: return "pinned: a read still holds what a merge replaced";
    case CLSM_CONFLICT: return "conflict: what the transaction read has changed";
    case CLSM_MEMORY: return "no memory";
    case CLSM_NO_SEAT: return "no seat";
    case CLSM_RUN_FULL: return "too many keys";
    case CLSM_WORN: return "worn: times end at 2^62";
    case CLSM_IN_USE: return "in use: something of it is open, or it is in another call";
    case CLSM_NO_THREAD: return "no thread: the system started none";
    case CLSM_CLOSED: return "closed handle";
    case CLSM_VERSIONS_FULL: return "too many versions for open snapshots";
    case CLSM_OWN_SNAPSHOT: return "too many versions for the caller's own snapshot";
    case CLSM_BAD_KEYS: return "keys out of range: 1 to 4194304 less the versions";
    case CLSM_BAD_EPOCH: return "epoch out of range: 4 to 65536";
    case CLSM_BAD_PATIENCE: return "patience out of range: -1 to 64";
    case CLSM_BAD_VALUE: return "bad value: not 1 to 8 words, or a time not reached yet";
    case CLSM_BAD_BATCH: return "batch longer than an epoch";
    case CLSM_BAD_POINTER: return "null pointer";
    case CLSM_BAD_BUILD: return "bad build: header and library do not fit";
    case CLSM_BAD_MERGE: return "merge is neither 0 nor CLSM_MERGE_IN_CALLS";
    case CLSM_EMPTY_BATCH: return "empty batch";
    case CLSM_BAD_VERSIONS: return "versions out of range: 6 * epoch + 64 to 4194304 less the keys";
    case CLSM_BAD_WAIT: return "wait out of range: -1 or more";
    default: return "unknown code";
    }
}
