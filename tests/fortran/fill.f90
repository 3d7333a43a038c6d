! Prints steps, places, lists and refusals of sections, as a Fortran program sees them,
! by both forms of each call.
program fill
  use, intrinsic :: iso_c_binding, only: i64 => c_int64_t, c_int8_t, c_int32_t, c_size_t, c_ptr, c_loc, c_null_ptr
  use hpfaddr
  implicit none

  integer(c_int8_t), parameter :: untouched = 90
  type(hpf_mapping), parameter :: dense = hpf_mapping(96, 3, 4, 1, 0, 96)
  type(hpf_mapping), parameter :: every_third_cell = hpf_mapping(144, 4, 4, 3, 0, 48)
  type(hpf_mapping), parameter :: small = hpf_mapping(12, 3, 2, 1, 0, 12)
  type(hpf_mapping), parameter :: no_elements = hpf_mapping(1, 1, 1, 1, 0, 0)
  ! A(1:100) aligned with T(2*j-2), and A(-3:20) with T(2*j+1) of a template from -5 on.
  type(hpf_mapping), parameter :: from_one = hpf_mapping(200, 4, 5, 2, -2, 100, 1, 0)
  type(hpf_mapping), parameter :: from_minus_three = hpf_mapping(47, 3, 4, 2, 1, 24, -3, -5)
  type(hpf_triplet), parameter :: by_seven = hpf_triplet(0, 95, 7)
  type(hpf_triplet), parameter :: beyond = hpf_triplet(0, 98, 7)

  call print_section(dense, by_seven)
  call print_section(dense, hpf_triplet(91, 0, -7))
  call print_section(every_third_cell, hpf_triplet(0, 47, 3))
  call print_section(small, hpf_triplet(0, 11, 6))
  call print_section(small, hpf_triplet(9, 0, -4))
  call print_section(no_elements, hpf_triplet(5, 1, 3))
  call print_section(from_one, hpf_triplet(1, 100, 7))
  call print_section(from_minus_three, hpf_triplet(20, -3, -3))
  call print_fills()
  call print_refusals()
  call print_names()

contains

  function section_steps(m, s) result(steps)
    type(hpf_mapping), intent(in) :: m
    type(hpf_triplet), intent(in) :: s
    type(hpf_steps) :: steps
    steps = hpf_section_steps(m%cells, m%processors, m%block, m%stride, m%offset, m%size, &
      m%array_lower, m%template_lower, s%lower, s%upper, s%stride)
    call expect_same(transfer(steps, [0_c_int32_t]), transfer(hpf_section_steps(m, s), [0_c_int32_t]))
  end function section_steps

  function first_place(m, s, processor) result(placed)
    type(hpf_mapping), intent(in) :: m
    type(hpf_triplet), intent(in) :: s
    integer(i64), intent(in) :: processor
    type(hpf_placed) :: placed
    placed = hpf_first_place(m%cells, m%processors, m%block, m%stride, m%offset, m%size, &
      m%array_lower, m%template_lower, s%lower, s%upper, s%stride, processor)
    call expect_same(transfer(placed, [0_c_int32_t]), transfer(hpf_first_place(m, s, processor), [0_c_int32_t]))
  end function first_place

  ! The other form fills a list with the same words.
  function fill_words(m, s, processor, place, list) result(filled)
    type(hpf_mapping), intent(in) :: m
    type(hpf_triplet), intent(in) :: s
    integer(i64), intent(in) :: processor, place
    integer(c_int32_t), intent(inout) :: list(:)
    integer(c_int32_t) :: other(size(list))
    type(hpf_filled) :: filled, typed
    other = list
    typed = hpf_fill_words(m, s, processor, place, hpf_largest_quota, other)
    filled = hpf_fill_words(m%cells, m%processors, m%block, m%stride, m%offset, m%size, &
      m%array_lower, m%template_lower, s%lower, s%upper, s%stride, processor, place, hpf_largest_quota, list)
    call expect_same(transfer(filled, [0_c_int32_t]), transfer(typed, [0_c_int32_t]))
    call expect_same(list, other)
  end function fill_words

  ! Into the bytes from the second one on. The other form fills a memory with the same
  ! bytes.
  function fill_bytes(m, s, processor, place, quota, memory, list_bytes) result(filled)
    type(hpf_mapping), intent(in) :: m
    type(hpf_triplet), intent(in) :: s
    integer(i64), intent(in) :: processor, place, quota
    integer(c_int8_t), intent(inout), target :: memory(24)
    integer, intent(in) :: list_bytes
    integer(c_int8_t), target :: other(24)
    type(hpf_filled) :: filled, typed
    other = memory
    typed = hpf_fill(m, s, processor, place, quota, list_in(other, list_bytes), int(list_bytes, c_size_t))
    filled = hpf_fill(m%cells, m%processors, m%block, m%stride, m%offset, m%size, &
      m%array_lower, m%template_lower, s%lower, s%upper, s%stride, &
      processor, place, quota, list_in(memory, list_bytes), int(list_bytes, c_size_t))
    call expect_same(transfer(filled, [0_c_int32_t]), transfer(typed, [0_c_int32_t]))
    call expect_same(transfer(memory, [0_c_int32_t]), transfer(other, [0_c_int32_t]))
  end function fill_bytes

  function list_in(memory, list_bytes) result(list)
    integer(c_int8_t), intent(in), target :: memory(24)
    integer, intent(in) :: list_bytes
    type(c_ptr) :: list
    list = c_null_ptr
    if (list_bytes > 0) list = c_loc(memory(2))
  end function list_in

  include 'same.inc'
  include 'filled.inc'

  subroutine print_section(m, s)
    type(hpf_mapping), intent(in) :: m
    type(hpf_triplet), intent(in) :: s
    integer(i64) :: processor
    call print_steps(m, s)
    do processor = 0, m%processors - 1
      call print_list(m, s, processor)
    end do
  end subroutine print_section

  subroutine print_steps(m, s)
    type(hpf_mapping), intent(in) :: m
    type(hpf_triplet), intent(in) :: s
    type(hpf_steps) :: steps
    steps = section_steps(m, s)
    write (*, '(5(i0, a), i0)', advance='no') &
      s%lower, ':', s%upper, ':', s%stride, ' has ', steps%count, ' elements, steps ', steps%steps
    if (steps%steps >= 1) call print_step(steps%cells, steps%courses, steps%column)
    if (steps%steps == 2) call print_step(steps%return_cells, steps%return_courses, steps%return_column)
    write (*, '()')
  end subroutine print_steps

  subroutine print_step(cells, courses, column)
    integer(i64), intent(in) :: cells, courses, column
    write (*, '(3(a, i0), a)', advance='no') ', ', cells, ' (', courses, ', ', column, ')'
  end subroutine print_step

  ! A processor's whole list, in fills of a few entries.
  subroutine print_list(m, s, processor)
    type(hpf_mapping), intent(in) :: m
    type(hpf_triplet), intent(in) :: s
    integer(i64), intent(in) :: processor
    integer(c_int32_t) :: list(3), fills, tries
    integer(i64) :: place, count
    type(hpf_steps) :: steps
    type(hpf_placed) :: placed
    type(hpf_filled) :: filled
    steps = section_steps(m, s)
    placed = first_place(m, s, processor)
    count = steps%count
    place = placed%place
    list = 0
    fills = 0
    tries = 0
    write (*, '(2(a, i0), a)', advance='no') 'processor ', processor, ' from place ', place, ':'
    do while (place /= count)
      filled = fill_words(m, s, processor, place, list)
      if (filled%refusal /= hpf_accepted) exit
      call print_addresses(list(1:filled%entries))
      fills = fills + 1
      tries = tries + filled%tries
      place = filled%place
    end do
    print '(2(a, i0), a)', ' (', tries, ' tries, ', fills, ' fills)'
  end subroutine print_list

  subroutine print_addresses(addresses)
    integer(c_int32_t), intent(in) :: addresses(:)
    integer :: i
    do i = 1, size(addresses)
      write (*, '(1x, i0)', advance='no') addresses(i)
    end do
  end subroutine print_addresses

  subroutine print_filled(name, filled)
    character(*), intent(in) :: name
    type(hpf_filled), intent(in) :: filled
    write (*, '(2a, 3(i0, 1x), i0)', advance='no') &
      name, ': ', filled%refusal, filled%entries, filled%tries, filled%place
  end subroutine print_filled

  ! One fill of the dense array into a list at an odd place in memory, and how many
  ! bytes it wrote there.
  subroutine print_fill(name, s, processor, place, quota, list_bytes)
    character(*), intent(in) :: name
    type(hpf_triplet), intent(in) :: s
    integer(i64), intent(in) :: processor, place, quota
    integer, intent(in) :: list_bytes
    integer(c_int8_t) :: memory(24)
    type(hpf_filled) :: filled
    memory = untouched
    filled = fill_bytes(dense, s, processor, place, quota, memory, list_bytes)
    call print_written(name, filled, memory)
  end subroutine print_fill

  subroutine print_fills()
    call print_fill('quota 4', by_seven, 0_i64, 0_i64, 4_i64, 15)
    call print_fill('quota 4 again', by_seven, 0_i64, 7_i64, 4_i64, 15)
    call print_fill('at the count', by_seven, 0_i64, 14_i64, 4_i64, 15)
    call print_fill('three entries', by_seven, 0_i64, 0_i64, 9_i64, 15)
    call print_fill('three bytes', by_seven, 0_i64, 2_i64, 4_i64, 3)
    call print_fill('no list', by_seven, 0_i64, 2_i64, 4_i64, 0)
    call print_fill('quota 3', by_seven, 0_i64, 0_i64, hpf_least_quota, 15)
    call print_fill('quota 2', by_seven, 0_i64, 0_i64, hpf_least_quota - 1, 15)
    call print_fill('quota 1000000', by_seven, 0_i64, 0_i64, hpf_largest_quota, 20)
    call print_fill('quota 1000001', by_seven, 0_i64, 0_i64, hpf_largest_quota + 1, 20)
    call print_fill('place of another', by_seven, 0_i64, 1_i64, 4_i64, 15)
    call print_fill('processor 3', by_seven, 3_i64, 0_i64, 4_i64, 15)
    call print_fill('beyond the array', beyond, 0_i64, 0_i64, 4_i64, 15)
    call print_fill('step 0', hpf_triplet(0, 95, 0), 0_i64, 0_i64, 4_i64, 15)
  end subroutine print_fills

  ! Refusals of the other calls, and of a fill with every fault and an empty list.
  subroutine print_refusals()
    integer(i64), parameter :: least = -huge(0_i64) - 1
    integer(c_int32_t) :: no_entries(0)
    type(hpf_steps) :: steps
    type(hpf_placed) :: placed
    steps = section_steps(from_one, hpf_triplet(0, 100, 7))
    print '(a, i0)', 'steps before the array: ', steps%refusal
    steps = section_steps(dense, beyond)
    print '(a, i0)', 'steps beyond the array: ', steps%refusal
    placed = first_place(dense, by_seven, -1_i64)
    print '(a, i0, 1x, i0)', 'first place of -1: ', placed%refusal, placed%place
    call print_filled('all at fault', &
      fill_words(hpf_mapping(least, least, least, least, least, least, least, least), &
      hpf_triplet(least, least, least), least, least, no_entries))
    write (*, '()')
  end subroutine print_refusals

  ! Each refusal by its name.
  subroutine print_names()
    print '(a, i0)', 'triplet ', hpf_refused_triplet
    print '(a, i0)', 'section ', hpf_refused_section
    print '(a, i0)', 'place ', hpf_refused_place
    print '(a, i0)', 'quota ', hpf_refused_quota
  end subroutine print_names

end program fill
