! Prints owners, addresses, sections and refusals of arrays that are dealt by a list of
! sizes, as a Fortran program sees them, by both forms of each call.
program gen_block
  use, intrinsic :: iso_c_binding, only: i64 => c_int64_t, i32 => c_int32_t, c_int8_t, c_int32_t, c_size_t, &
    c_ptr, c_loc, c_null_ptr
  use hpfaddr
  implicit none

  integer, parameter :: room = 32
  integer(c_int8_t), parameter :: untouched = 90
  integer(i32), parameter :: by_work(4) = [3, 0, 5, 4]
  ! A template of 10 cells, of which the last processor has 2.
  type(hpf_gen_block_mapping) :: uneven
  ! A(1:6) aligned with T(3*j-5) of a template from -4 on.
  type(hpf_gen_block_mapping) :: from_one
  type(hpf_gen_block_mapping) :: long_runs
  type(hpf_triplet), parameter :: dense = hpf_triplet(0, 9, 1)
  type(hpf_owned) :: last

  uneven = hpf_gen_block_mapping(cells=10, processors=4, sizes=by_work, stride=1, offset=0, size=10)
  from_one = hpf_gen_block_mapping(20, 4, [0, 9, 11, 0], 3, -5, 6, 1, -4)
  long_runs = hpf_gen_block_mapping(2147483647, 2, [huge(0_i32), huge(0_i32)], 1, 0, 2147483647)
  call print_array(uneven)
  call print_array(from_one)
  last = ownership(long_runs, 2147483646_i64)
  print '(a, i0)', 'the last of 2147483647: ', last%address
  call print_section(uneven, dense)
  call print_section(uneven, hpf_triplet(9, 0, -2))
  call print_section(uneven, hpf_triplet(4, 4, 3))
  call print_section(from_one, hpf_triplet(1, 6, 2))
  call print_fills()
  call print_refusals()
  call print_sizes_elsewhere()

contains

  function ownership(m, index) result(owned)
    type(hpf_gen_block_mapping), intent(in) :: m
    integer(i64), intent(in) :: index
    type(hpf_owned) :: owned
    owned = hpf_ownership(m%cells, m%processors, m%sizes, m%stride, m%offset, m%size, &
      m%array_lower, m%template_lower, index)
    call expect_same(transfer(owned, [0_i32]), transfer(hpf_ownership(m, index), [0_i32]))
  end function ownership

  function going_back(m, processor, address) result(found)
    type(hpf_gen_block_mapping), intent(in) :: m
    integer(i64), intent(in) :: processor, address
    type(hpf_found) :: found
    found = hpf_going_back(m%cells, m%processors, m%sizes, m%stride, m%offset, m%size, &
      m%array_lower, m%template_lower, processor, address)
    call expect_same(transfer(found, [0_i32]), transfer(hpf_going_back(m, processor, address), [0_i32]))
  end function going_back

  function local_count(m, processor) result(counted)
    type(hpf_gen_block_mapping), intent(in) :: m
    integer(i64), intent(in) :: processor
    type(hpf_counted) :: counted
    counted = hpf_local_count(m%cells, m%processors, m%sizes, m%stride, m%offset, m%size, &
      m%array_lower, m%template_lower, processor)
    call expect_same(transfer(counted, [0_i32]), transfer(hpf_local_count(m, processor), [0_i32]))
  end function local_count

  function section_steps(m, s) result(steps)
    type(hpf_gen_block_mapping), intent(in) :: m
    type(hpf_triplet), intent(in) :: s
    type(hpf_steps) :: steps
    steps = hpf_section_steps(m%cells, m%processors, m%sizes, m%stride, m%offset, m%size, &
      m%array_lower, m%template_lower, s%lower, s%upper, s%stride)
    call expect_same(transfer(steps, [0_i32]), transfer(hpf_section_steps(m, s), [0_i32]))
  end function section_steps

  function first_place(m, s, processor) result(placed)
    type(hpf_gen_block_mapping), intent(in) :: m
    type(hpf_triplet), intent(in) :: s
    integer(i64), intent(in) :: processor
    type(hpf_placed) :: placed
    placed = hpf_first_place(m%cells, m%processors, m%sizes, m%stride, m%offset, m%size, &
      m%array_lower, m%template_lower, s%lower, s%upper, s%stride, processor)
    call expect_same(transfer(placed, [0_i32]), transfer(hpf_first_place(m, s, processor), [0_i32]))
  end function first_place

  ! The other form fills a list with the same words.
  function fill_words(m, s, processor, place, list) result(filled)
    type(hpf_gen_block_mapping), intent(in) :: m
    type(hpf_triplet), intent(in) :: s
    integer(i64), intent(in) :: processor, place
    integer(i32), intent(inout) :: list(:)
    integer(i32) :: other(size(list))
    type(hpf_filled) :: filled, typed
    other = list
    typed = hpf_fill_words(m, s, processor, place, hpf_largest_quota, other)
    filled = hpf_fill_words(m%cells, m%processors, m%sizes, m%stride, m%offset, m%size, &
      m%array_lower, m%template_lower, s%lower, s%upper, s%stride, processor, place, hpf_largest_quota, list)
    call expect_same(transfer(filled, [0_i32]), transfer(typed, [0_i32]))
    call expect_same(list, other)
  end function fill_words

  ! Into the bytes from the second one on. The other form fills a memory with the same
  ! bytes.
  function fill_bytes(m, s, processor, place, quota, memory, list_bytes) result(filled)
    type(hpf_gen_block_mapping), intent(in) :: m
    type(hpf_triplet), intent(in) :: s
    integer(i64), intent(in) :: processor, place, quota
    integer(c_int8_t), intent(inout), target :: memory(room)
    integer, intent(in) :: list_bytes
    integer(c_int8_t), target :: other(room)
    type(hpf_filled) :: filled, typed
    other = memory
    typed = hpf_fill(m, s, processor, place, quota, list_in(other, list_bytes), int(list_bytes, c_size_t))
    filled = hpf_fill(m%cells, m%processors, m%sizes, m%stride, m%offset, m%size, &
      m%array_lower, m%template_lower, s%lower, s%upper, s%stride, &
      processor, place, quota, list_in(memory, list_bytes), int(list_bytes, c_size_t))
    call expect_same(transfer(filled, [0_i32]), transfer(typed, [0_i32]))
    call expect_same(transfer(memory, [0_i32]), transfer(other, [0_i32]))
  end function fill_bytes

  function list_in(memory, list_bytes) result(list)
    integer(c_int8_t), intent(in), target :: memory(room)
    integer, intent(in) :: list_bytes
    type(c_ptr) :: list
    list = c_null_ptr
    if (list_bytes > 0) list = c_loc(memory(2))
  end function list_in

  include 'same.inc'
  include 'filled.inc'

  ! Each processor's elements by address, there and back.
  subroutine print_array(m)
    type(hpf_gen_block_mapping), intent(in) :: m
    type(hpf_counted) :: held
    type(hpf_found) :: found
    type(hpf_owned) :: owned
    integer(i64) :: processor, address
    do processor = 0, m%processors - 1
      held = local_count(m, processor)
      write (*, '(2(a, i0), a)', advance='no') 'processor ', processor, ' holds ', held%elements, ':'
      do address = 0, held%elements - 1
        found = going_back(m, processor, address)
        owned = ownership(m, int(found%index, i64))
        if (owned%processor /= processor .or. owned%address /= address) error stop 'there and back differ'
        write (*, '(1x, i0)', advance='no') found%index
      end do
      write (*, '()')
    end do
  end subroutine print_array

  subroutine print_section(m, s)
    type(hpf_gen_block_mapping), intent(in) :: m
    type(hpf_triplet), intent(in) :: s
    type(hpf_steps) :: steps
    integer(i64) :: processor
    steps = section_steps(m, s)
    write (*, '(5(i0, a), i0)', advance='no') &
      s%lower, ':', s%upper, ':', s%stride, ' has ', steps%count, ' elements, steps ', steps%steps
    if (steps%steps == 1) write (*, '(3(a, i0), a)', advance='no') &
      ', ', steps%cells, ' (', steps%courses, ', ', steps%column, ')'
    write (*, '()')
    do processor = 0, m%processors - 1
      call print_list(m, s, processor, steps%count)
    end do
  end subroutine print_section

  ! A processor's whole list, in fills of a few entries.
  subroutine print_list(m, s, processor, count)
    type(hpf_gen_block_mapping), intent(in) :: m
    type(hpf_triplet), intent(in) :: s
    integer(i64), intent(in) :: processor, count
    integer(i32) :: list(2), fills, tries
    integer(i64) :: place
    type(hpf_placed) :: placed
    type(hpf_filled) :: filled
    placed = first_place(m, s, processor)
    place = placed%place
    list = 0
    fills = 0
    tries = 0
    write (*, '(2(a, i0), a)', advance='no') 'processor ', processor, ' from place ', place, ':'
    do while (place /= count)
      filled = fill_words(m, s, processor, place, list)
      if (filled%refusal /= hpf_accepted) exit
      write (*, '(*(:, 1x, i0))', advance='no') list(:filled%entries)
      fills = fills + 1
      tries = tries + filled%tries
      place = filled%place
    end do
    print '(2(a, i0), a)', ' (', tries, ' tries, ', fills, ' fills)'
  end subroutine print_list

  ! One fill of the dense section into a list at an odd place in memory, and how many
  ! bytes it wrote there.
  subroutine print_fill(name, m, processor, place, quota, list_bytes)
    character(*), intent(in) :: name
    type(hpf_gen_block_mapping), intent(in) :: m
    integer(i64), intent(in) :: processor, place, quota
    integer, intent(in) :: list_bytes
    integer(c_int8_t) :: memory(room)
    type(hpf_filled) :: filled
    memory = untouched
    filled = fill_bytes(m, dense, processor, place, quota, memory, list_bytes)
    call print_written(name, filled, memory)
  end subroutine print_fill

  subroutine print_fills()
    call print_fill('quota 3', uneven, 2_i64, 3_i64, hpf_least_quota, 23)
    call print_fill('quota 5', uneven, 2_i64, 4_i64, 5_i64, 23)
    call print_fill('five entries', uneven, 2_i64, 3_i64, 7_i64, 23)
    call print_fill('three entries', uneven, 2_i64, 3_i64, 7_i64, 15)
    call print_fill('at the count', uneven, 2_i64, 10_i64, 7_i64, 23)
    call print_fill('no list', uneven, 2_i64, 3_i64, 7_i64, 0)
    call print_fill('quota 2', uneven, 2_i64, 3_i64, hpf_least_quota - 1, 23)
    call print_fill('place of another', uneven, 2_i64, 8_i64, 7_i64, 23)
    call print_fill('processor 4', uneven, 4_i64, 3_i64, 7_i64, 23)
  end subroutine print_fills

  ! All calls on a mapping that is refused.
  subroutine print_refused(name, m)
    character(*), intent(in) :: name
    type(hpf_gen_block_mapping), intent(in) :: m
    type(hpf_owned) :: owned
    type(hpf_found) :: found
    type(hpf_counted) :: counted
    type(hpf_steps) :: steps
    type(hpf_placed) :: placed
    owned = ownership(m, 0_i64)
    found = going_back(m, 0_i64, 0_i64)
    counted = local_count(m, 0_i64)
    steps = section_steps(m, dense)
    placed = first_place(m, dense, 0_i64)
    print '(2a, 4(i0, 1x), i0)', name, ': ', owned%refusal, found%refusal, counted%refusal, steps%refusal, placed%refusal
    call print_fill(name, m, 0_i64, 0_i64, 7_i64, 23)
  end subroutine print_refused

  subroutine print_refusals()
    integer(i32), parameter :: least = -huge(0_i32) - 1
    integer(i32) :: no_sizes(0)
    call print_refused('sum 9', hpf_gen_block_mapping(10, 4, [3, 0, 5, 1], 1, 0, 10))
    call print_refused('size -1', hpf_gen_block_mapping(10, 4, [11, 0, -1, 0], 1, 0, 10))
    call print_refused('size -2147483648', hpf_gen_block_mapping(10, 4, [least, 10, 10, 10], 1, 0, 10))
    call print_refused('three sizes', hpf_gen_block_mapping(10, 4, by_work(:3), 1, 0, 10))
    call print_refused('five sizes', hpf_gen_block_mapping(10, 4, [by_work, 0], 1, 0, 10))
    call print_refused('no sizes', hpf_gen_block_mapping(10, 4, no_sizes, 1, 0, 10))
    call print_refused('no processors', hpf_gen_block_mapping(10, 0, by_work, 1, 0, 10))
    call print_refused('no sizes, stride 0', hpf_gen_block_mapping(10, 4, no_sizes, 0, 0, 10))
    print '(a, i0)', 'gen_block ', hpf_refused_gen_block
  end subroutine print_refusals

  ! Sizes that do not lie side by side, and sizes that were never allocated.
  subroutine print_sizes_elsewhere()
    integer(i32), parameter :: apart(8) = [3, -1, 0, -1, 5, -1, 4, -1]
    type(hpf_gen_block_mapping) :: unknown
    type(hpf_owned) :: owned
    integer(i32) :: sizes(8)
    sizes = apart
    owned = hpf_ownership(10_i64, 4_i64, sizes(::2), 1_i64, 0_i64, 10_i64, 0_i64, 0_i64, 9_i64)
    print '(a, 2(i0, 1x), i0)', 'sizes apart: ', owned%refusal, owned%processor, owned%address
    unknown = hpf_gen_block_mapping(cells=10, processors=4, stride=1, offset=0, size=10)
    owned = hpf_ownership(unknown, 9_i64)
    print '(a, 2(i0, 1x), i0)', 'sizes never allocated: ', owned%refusal, owned%processor, owned%address
  end subroutine print_sizes_elsewhere

end program gen_block
