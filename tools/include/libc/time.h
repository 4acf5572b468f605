#ifndef MEMCAD_TIME_H
#define MEMCAD_TIME_H
typedef long time_t;
typedef long clock_t;
time_t time(time_t *to);
clock_t clock(void);
#endif
