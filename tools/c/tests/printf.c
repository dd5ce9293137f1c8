/* Floating point: arithmetic, and numbers as text in many forms, both ways. */
#include <math.h>
#include <stdio.h>
#include <stdlib.h>

int main(void)
{
    volatile double third = 1 / 3.0;
    volatile float tenth = 0.1f;
    double x = 0, y = 0;
    int taken = sscanf("2.5 -1e-3", "%lf %lf", &x, &y);

    printf("%f %.3f %10.2f|%-10.2f|%+f\n", third, third, third, third, third);
    printf("%e %g %g %g\n", third * 1e20, third, 1e100, 1e-5);
    printf("%.9g %.15g\n", tenth, third);
    printf("%f %f %f %d\n", INFINITY, -INFINITY, sqrt(2), isnan(NAN));
    printf("%d %f %f %.1f\n", taken, x, y, strtod("1e3", NULL));
    printf("%d %u %x %lld %5d|%-5d|%05d %s %c %%\n", -1, 4000000000u, 255, -1234567890123456789LL, 42, 42, 42, "text", 'c');
    return 0;
}
