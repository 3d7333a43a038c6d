! Processor 0's part of x(1:96:7) = 1, for x(1:96) dealt to 3 processors in blocks of 4.
program assign
  use, intrinsic :: iso_c_binding, only: i64 => c_int64_t, c_int32_t
  use hpfaddr
  implicit none
  integer(i64), parameter :: me = 0
  type(hpf_mapping), parameter :: x_on_t = hpf_mapping(cells=96, processors=3, block=4, &
    stride=1, offset=-1, size=96, array_lower=1)              ! a bound that is left out is 0
  type(hpf_triplet), parameter :: section = hpf_triplet(lower=1, upper=96, stride=7)
  type(hpf_counted) :: held
  type(hpf_steps) :: steps
  type(hpf_placed) :: first
  type(hpf_filled) :: filled
  integer(c_int32_t) :: list(4)
  integer(i64) :: place
  real, allocatable :: x(:)
  held = hpf_local_count(x_on_t, me)                          ! 32 elements to store here
  steps = hpf_section_steps(x_on_t, section)                  ! 14 elements in all
  first = hpf_first_place(x_on_t, section, me)                ! the first of ours: position 0
  if (held%refusal /= 0 .or. steps%refusal /= 0 .or. first%refusal /= 0) error stop 'refused'
  allocate (x(0:held%elements - 1), source=0.0)
  place = first%place
  do while (place /= steps%count)
    filled = hpf_fill_words(x_on_t, section, me, place, hpf_largest_quota, list)
    if (filled%refusal /= 0) error stop 'refused'
    x(list(:filled%entries)) = 1.0                            ! 0 6 17 23, then 28
    print '(*(i0, :, " "))', list(:filled%entries)
    place = filled%place
  end do
  print '(a, i0, a)', 'hpfaddr ' // hpfaddr_version_string // ': ', int(sum(x)), ' elements assigned'
end program assign
