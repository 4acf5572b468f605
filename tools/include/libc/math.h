#ifndef MEMCAD_MATH_H
#define MEMCAD_MATH_H
double sqrt(double number);
double fabs(double number);
double floor(double number);
double ceil(double number);
double pow(double base, double exponent);
#endif
