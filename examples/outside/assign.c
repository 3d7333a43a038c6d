/* Processor 0's part of x(1:96:7) = 1, for x(1:96) dealt to 3 processors in blocks of 4. */
#include <stdio.h>
#include <hpfaddr.h>

int main(void)
{
    const hpf_mapping x = {.cells = 96, .processors = 3, .block = 4,
                           .stride = 1, .offset = -1, .size = 96, .array_lower = 1};
    const hpf_triplet section = {.lower = 1, .upper = 96, .stride = 7};
    int32_t list[8];
    hpf_placed first = hpf_first_place_of(x, section, 0);
    if (first.refusal != HPF_ACCEPTED)
        return 1;
    hpf_filled r = hpf_fill_of(x, section, 0, first.place, HPF_LARGEST_QUOTA, (uint8_t *)list, sizeof list);
    if (r.refusal != HPF_ACCEPTED)
        return 1;
    for (int32_t i = 0; i < r.entries; i++)                   /* all of them: r.place is the count */
        printf("%d\n", (int)list[i]);                         /* 0 6 17 23 28 */
    hpf_owned o = hpf_ownership_of(x, 96);                    /* the last: processor 2, address 31 */
    printf("hpfaddr %s: x(96) is on processor %d at address %d\n",
           HPFADDR_VERSION_STRING, (int)o.processor, (int)o.address);
    return hpf_going_back_of(x, o.processor, o.address).index == 96 ? 0 : 1;
}
