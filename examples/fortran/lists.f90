! Each processor's addresses in the section 0:95:7 of an array of 96 elements, on a
! template of 96 cells that is dealt to 3 processors in blocks of 4. A list of 4
! entries is filled again and again, until the place is the section's count. Each call
! takes plain numbers here; bounds.f90 has the calls on a mapping and a section.
program lists
  use, intrinsic :: iso_c_binding, only: i64 => c_int64_t, c_int32_t
  use hpfaddr
  implicit none

  integer(i64), parameter :: cells = 96, processors = 3, block = 4
  integer(i64), parameter :: stride = 1, offset = 0, size = 96
  integer(i64), parameter :: array_lower = 0, template_lower = 0
  integer(i64), parameter :: lower = 0, upper = 95, step = 7
  type(hpf_steps) :: steps
  integer(i64) :: processor

  steps = hpf_section_steps(cells, processors, block, stride, offset, size, array_lower, template_lower, &
    lower, upper, step)
  if (steps%refusal /= hpf_accepted) error stop 'the section is refused'
  do processor = 0, processors - 1
    call print_list(processor, steps%count)
  end do

contains

  subroutine print_list(processor, count)
    integer(i64), intent(in) :: processor, count
    integer(c_int32_t) :: list(4)
    type(hpf_placed) :: first
    type(hpf_filled) :: filled
    integer(i64) :: place
    integer :: entry

    first = hpf_first_place(cells, processors, block, stride, offset, size, array_lower, template_lower, &
      lower, upper, step, processor)
    place = first%place
    write (*, '(a, i0, a)', advance='no') 'processor ', processor, ':'
    do while (place /= count)
      filled = hpf_fill_words(cells, processors, block, stride, offset, size, array_lower, template_lower, &
        lower, upper, step, processor, place, hpf_largest_quota, list)
      do entry = 1, filled%entries
        write (*, '(1x, i0)', advance='no') list(entry)
      end do
      place = filled%place
    end do
    write (*, '()')
  end subroutine print_list

end program lists
