! An array with declared bounds, a(-3:20), aligned with every second cell of a template
! t(-5:41), a(j) with t(2*j+1), which is dealt to 3 processors in blocks of 4. Each
! processor holds its elements in storage of its own, and there sets a(20:-3:-5) to 99.
program bounds
  use, intrinsic :: iso_c_binding, only: i64 => c_int64_t, c_int32_t
  use hpfaddr
  implicit none

  real :: a(-3:20)
  type(hpf_mapping) :: mapping
  type(hpf_triplet) :: section
  integer(i64) :: processor
  integer :: j

  a = [(real(j), j = lbound(a, 1), ubound(a, 1))]
  mapping = hpf_mapping(cells=47, processors=3, block=4, stride=2, offset=1, size=size(a), &
    array_lower=lbound(a, 1), template_lower=-5)
  section = hpf_triplet(lower=20, upper=-3, stride=-5)
  do processor = 0, mapping%processors - 1
    call assign(processor)
  end do

contains

  subroutine assign(processor)
    integer(i64), intent(in) :: processor
    real, allocatable :: mine(:)
    type(hpf_counted) :: held
    held = hpf_local_count(mapping, processor)
    if (held%refusal /= hpf_accepted) error stop 'the mapping is refused'
    allocate (mine(0:held%elements - 1))
    call fetch(processor, mine)
    call set(processor, mine)
  end subroutine assign

  ! The elements that the processor holds, by address.
  subroutine fetch(processor, mine)
    integer(i64), intent(in) :: processor
    real, intent(out) :: mine(0:)
    type(hpf_found) :: found
    integer(i64) :: address
    write (*, '(a, i0, a)', advance='no') 'processor ', processor, ' holds'
    do address = 0, size(mine) - 1
      found = hpf_going_back(mapping, processor, address)
      mine(address) = a(found%index)
      write (*, '(a, i0, a)', advance='no') ' a(', found%index, ')'
    end do
    write (*, '()')
  end subroutine fetch

  ! The processor's addresses in the section, two at a time, and what it holds then.
  subroutine set(processor, mine)
    integer(i64), intent(in) :: processor
    real, intent(inout) :: mine(0:)
    type(hpf_steps) :: steps
    type(hpf_placed) :: first
    type(hpf_filled) :: filled
    integer(c_int32_t) :: list(2)
    integer(i64) :: place
    steps = hpf_section_steps(mapping, section)
    first = hpf_first_place(mapping, section, processor)
    if (steps%refusal /= hpf_accepted .or. first%refusal /= hpf_accepted) error stop 'the section is refused'
    write (*, '(a)', advance='no') '  at addresses'
    place = first%place
    do while (place /= steps%count)
      filled = hpf_fill_words(mapping, section, processor, place, hpf_largest_quota, list)
      write (*, '(*(:, 1x, i0))', advance='no') list(:filled%entries)
      mine(list(:filled%entries)) = 99
      place = filled%place
    end do
    print '(a, *(:, 1x, i0))', ' it sets 99:', nint(mine)
  end subroutine set

end program bounds
