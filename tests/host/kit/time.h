#ifndef KIT_TIME_H
#define KIT_TIME_H
struct timespec {
    long tv_sec;
    long tv_nsec;
};
#define TIME_UTC 1
int timespec_get(struct timespec *time, int base);
#endif
