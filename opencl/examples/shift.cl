// The kernel of shift.c: work-item i stores what work-item i + 1 may have changed already.
#define NEXT(i) (((i) + 1) % get_global_size(0))
__kernel void shift(__global int *data)
{
    const int i = get_global_id(0);
    data[i] = data[NEXT(i)];
}
