// Berkeley DB's lock manager behind three calls, for Rust.
#include <db.h>
#include <string.h>

enum { RECORDS = 4096, ROOM = 20000 };

// An environment of locks alone, private to this process; null if it cannot be had.
DB_ENV *berkeley_open(const char *folder, int threaded) {
    DB_ENV *env;
    if (db_env_create(&env, 0) != 0) {
        return NULL;
    }
    env->set_lk_max_locks(env, ROOM);
    env->set_lk_max_objects(env, ROOM);
    env->set_lk_max_lockers(env, ROOM);
    u_int32_t flags = DB_CREATE | DB_INIT_LOCK | DB_PRIVATE | (threaded ? DB_THREAD : 0);
    return env->open(env, folder, flags, 0) == 0 ? env : NULL;
}

static int lock(DB_ENV *env, u_int32_t locker, u_int32_t record) {
    DBT object;
    DB_LOCK held;
    memset(&object, 0, sizeof object);
    object.data = &record;
    object.size = sizeof record;
    return env->lock_get(env, locker, DB_LOCK_NOWAIT, &object, DB_LOCK_WRITE, &held);
}

// One locker takes every record and keeps it: 0 if it could.
int berkeley_hold_all(DB_ENV *env) {
    u_int32_t locker;
    int bad = env->lock_id(env, &locker);
    for (u_int32_t record = 0; record < RECORDS && !bad; record++) {
        bad = lock(env, locker, record);
    }
    return bad;
}

// Changes one after the other, each with its own locker, k locks and all of them put back: how many were granted, or -1.
long berkeley_changes(DB_ENV *env, unsigned changes, unsigned k) {
    long granted = 0;
    u_int32_t record = 0, locker;
    DB_LOCKREQ all;
    memset(&all, 0, sizeof all);
    all.op = DB_LOCK_PUT_ALL;
    for (unsigned change = 0; change < changes; change++) {
        if (env->lock_id(env, &locker) != 0) {
            return -1;
        }
        for (unsigned i = 0; i < k; i++) {
            granted += lock(env, locker, record) == 0;
            record = (record + 1) % RECORDS;
        }
        if (env->lock_vec(env, locker, 0, &all, 1, NULL) != 0 || env->lock_id_free(env, locker) != 0) {
            return -1;
        }
    }
    return granted;
}
