! Prints owners, addresses, sections and refusals of arrays of rank 1 to 3 on grids of
! processors, as a Fortran program sees them.
program grids
  use, intrinsic :: iso_c_binding, only: i64 => c_int64_t, i32 => c_int32_t, c_int8_t, c_int32_t, c_size_t, &
    c_ptr, c_loc, c_null_ptr
  use hpfaddr
  implicit none

  ! A section of a grid, and the sizes of each dimension, if it has any.
  type :: example
    type(hpf_grid_section) :: section
    integer(i32), allocatable :: first(:), second(:), third(:)
  end type example

  integer, parameter :: room = 32
  integer(c_int8_t), parameter :: untouched = 90
  ! x(0:5, 0:3) in blocks of 2 and of 1 on 2 x 2 processors.
  type(hpf_dimension), parameter :: six = hpf_dimension(cells=6, processors=2, block=2, size=6)
  type(hpf_mapping), parameter :: four = hpf_mapping(cells=4, processors=2, block=1, stride=1, offset=0, size=4)
  type(hpf_triplet), parameter :: inner = hpf_triplet(1, 5, 1), all = hpf_triplet(0, 3, 1), both = hpf_triplet(0, 1, 1)

  call print_array('x(0:5, 0:3)', matrix(inner, all), 4_i64)
  call print_array('x(1:4, 0:3, 0:1)', cube(inner, all, both), 8_i64)
  call print_section('x(1:5, 0:3)', matrix(inner, all), 4_i64)
  call print_section('x(1:5, 2:1)', matrix(inner, hpf_triplet(2, 1, 1)), 4_i64)
  call print_section('x(4:2:-1, 0:3:3, 0:1)', cube(hpf_triplet(4, 2, -1), hpf_triplet(0, 3, 3), both), 8_i64)
  call print_rank_one()
  call print_fills(matrix(inner, all))
  call print_refusals()
  call print_left_out()

contains

  function matrix(first, second) result(e)
    type(hpf_triplet), intent(in) :: first, second
    type(example) :: e
    e%section = hpf_grid_section(hpf_grid(six, hpf_dimension(four)), first, second)
  end function matrix

  ! x(1:4, 0:3, 0:1) on 2 x 2 x 2 processors: by the sizes 1 and 3, in blocks of 1, and by the
  ! sizes 0 and 2.
  function cube(first, second, third) result(e)
    type(hpf_triplet), intent(in) :: first, second, third
    type(example) :: e
    type(hpf_gen_block_mapping) :: uneven
    type(hpf_dimension) :: last
    uneven = hpf_gen_block_mapping(cells=4, processors=2, sizes=[1, 3], stride=1, offset=-1, size=4, array_lower=1)
    last = hpf_dimension(cells=2, processors=2, dealing=hpf_gen_block, size=2)
    e%section = hpf_grid_section(hpf_grid(hpf_dimension(uneven), hpf_dimension(four), last), first, second, third)
    allocate (e%first, source=uneven%sizes)
    allocate (e%third, source=[0, 2])
  end function cube

  function ownership(e, first, second, third) result(owned)
    type(example), intent(in) :: e
    integer(i64), intent(in) :: first, second, third
    type(hpf_owned) :: owned
    owned = hpf_grid_ownership(e%section%grid, first, second, third, e%first, e%second, e%third)
  end function ownership

  function going_back(e, processor, address) result(found)
    type(example), intent(in) :: e
    integer(i64), intent(in) :: processor, address
    type(hpf_grid_found) :: found
    found = hpf_grid_going_back(e%section%grid, processor, address, e%first, e%second, e%third)
  end function going_back

  function section_steps(e) result(steps)
    type(example), intent(in) :: e
    type(hpf_grid_steps) :: steps
    steps = hpf_grid_section_steps(e%section, e%first, e%second, e%third)
  end function section_steps

  function first_place(e, processor) result(placed)
    type(example), intent(in) :: e
    integer(i64), intent(in) :: processor
    type(hpf_placed) :: placed
    placed = hpf_grid_first_place(e%section, processor, e%first, e%second, e%third)
  end function first_place

  ! Each processor's elements by address, there and back.
  subroutine print_array(name, e, processors)
    character(*), intent(in) :: name
    type(example), intent(in) :: e
    integer(i64), intent(in) :: processors
    type(hpf_grid_found) :: found
    type(hpf_owned) :: owned
    integer(i64) :: processor, address
    print '(a)', name
    do processor = 0, processors - 1
      write (*, '(a, i0, a)', advance='no') 'processor ', processor, ' holds'
      address = 0
      found = going_back(e, processor, address)
      do while (found%refusal == hpf_accepted)
        owned = ownership(e, int(found%first, i64), int(found%second, i64), int(found%third, i64))
        if (owned%processor /= processor .or. owned%address /= address) error stop 'there and back differ'
        write (*, '(3(a, i0))', advance='no') ' ', found%first, ',', found%second, ',', found%third
        address = address + 1
        found = going_back(e, processor, address)
      end do
      write (*, '()')
    end do
  end subroutine print_array

  ! The count, and the count and the steps of each dimension.
  subroutine print_section(name, e, processors)
    character(*), intent(in) :: name
    type(example), intent(in) :: e
    integer(i64), intent(in) :: processors
    type(hpf_grid_steps) :: steps
    integer(i64) :: processor
    integer :: i
    steps = section_steps(e)
    print '(2a, i0, a)', name, ' has ', steps%count, ' elements'
    do i = 1, 3
      associate (s => steps%dimensions(i))
        print '(8(i0, a))', s%count, ' with steps ', s%steps, ': ', s%cells, ' (', s%courses, ', ', s%column, '), ', &
          s%return_cells, ' (', s%return_courses, ', ', s%return_column, ')'
      end associate
    end do
    do processor = 0, processors - 1
      call print_list(e, processor, steps%count)
    end do
  end subroutine print_section

  ! A processor's whole list, in fills of a few entries.
  subroutine print_list(e, processor, count)
    type(example), intent(in) :: e
    integer(i64), intent(in) :: processor, count
    integer(i32) :: list(3), fills, tries
    integer(i64) :: place
    type(hpf_placed) :: placed
    type(hpf_filled) :: filled
    placed = first_place(e, processor)
    place = placed%place
    list = 0
    fills = 0
    tries = 0
    write (*, '(2(a, i0), a)', advance='no') 'processor ', processor, ' from place ', place, ':'
    do while (place /= count)
      filled = hpf_grid_fill_words(e%section, processor, place, hpf_largest_quota, list, e%first, e%second, e%third)
      if (filled%refusal /= hpf_accepted) exit
      write (*, '(*(:, 1x, i0))', advance='no') list(:filled%entries)
      fills = fills + 1
      tries = tries + filled%tries
      place = filled%place
    end do
    print '(2(a, i0), a)', ' (', tries, ' tries, ', fills, ' fills)'
  end subroutine print_list

  ! One fill into a list at an odd place in memory, and how many bytes it wrote there.
  subroutine print_fill(name, e, processor, place, quota, list_bytes)
    character(*), intent(in) :: name
    type(example), intent(in) :: e
    integer(i64), intent(in) :: processor, place, quota
    integer, intent(in) :: list_bytes
    integer(c_int8_t), target :: memory(room)
    type(c_ptr) :: list
    type(hpf_filled) :: filled
    memory = untouched
    list = c_null_ptr
    if (list_bytes > 0) list = c_loc(memory(2))
    filled = hpf_grid_fill(e%section, processor, place, quota, list, int(list_bytes, c_size_t), &
      e%first, e%second, e%third)
    call print_written(name, filled, memory)
  end subroutine print_fill

  subroutine print_fills(e)
    type(example), intent(in) :: e
    call print_fill('quota 3', e, 1_i64, 1_i64, hpf_least_quota, 23)
    call print_fill('quota 4, to the row''s end', e, 1_i64, 1_i64, 4_i64, 23)
    call print_fill('quota 6, into the next row', e, 1_i64, 1_i64, 6_i64, 23)
    call print_fill('one entry', e, 1_i64, 2_i64, 6_i64, 7)
    call print_fill('the last', e, 1_i64, 12_i64, 6_i64, 23)
    call print_fill('at the count', e, 1_i64, 20_i64, 6_i64, 23)
    call print_fill('no list', e, 1_i64, 1_i64, 6_i64, 0)
    call print_fill('quota 2', e, 1_i64, 1_i64, hpf_least_quota - 1, 23)
    call print_fill('place in a row of another', e, 1_i64, 6_i64, 6_i64, 23)
    call print_fill('processor 4', e, 4_i64, 1_i64, 6_i64, 23)
  end subroutine print_fills

  ! All calls on a grid that is refused.
  subroutine print_refused(name, e)
    character(*), intent(in) :: name
    type(example), intent(in) :: e
    type(hpf_owned) :: owned
    type(hpf_grid_found) :: found
    type(hpf_grid_steps) :: steps
    type(hpf_placed) :: placed
    owned = ownership(e, 0_i64, 0_i64, 0_i64)
    found = going_back(e, 0_i64, 0_i64)
    steps = section_steps(e)
    placed = first_place(e, 0_i64)
    print '(2a, 3(i0, 1x), i0)', name, ': ', owned%refusal, found%refusal, steps%refusal, placed%refusal
    call print_fill(name, e, 0_i64, 0_i64, 6_i64, 23)
  end subroutine print_refused

  subroutine print_refusals()
    type(hpf_triplet), parameter :: whole = all
    type(example) :: e
    e = matrix(whole, whole)
    e%section%grid%rank = 4
    call print_refused('rank 4', e)
    e%section%grid%rank = 0
    e%section%grid%dimensions(1)%cells = 0
    call print_refused('rank 0, no cells', e)
    e = matrix(whole, whole)
    e%section%grid%dimensions(:2)%processors = [32, 33]
    call print_refused('32 x 33 processors', e)
    e%section%triplets(2)%stride = 0
    call print_refused('32 x 33 processors, step 0', e)
    e%section%triplets(1)%upper = 6
    e%section%grid%dimensions(2)%block = 0
    call print_refused('block 0 after elements past the end', e)
    e = matrix(whole, whole)
    e%section%grid%dimensions(:2)%cells = 46341
    e%section%grid%dimensions(:2)%size = 46341
    call print_refused('46341 x 46341 elements', e)
    e = cube(hpf_triplet(1, 4, 1), whole, both)
    deallocate (e%third)
    call print_refused('no sizes', e)
    e%section%grid%rank = 2
    call print_fill('no sizes past the rank', e, 0_i64, 0_i64, 6_i64, 23)
    print '(a, i0)', 'grid ', hpf_refused_grid
  end subroutine print_refusals

  ! x(-2:2) in blocks of 3, alone and as a grid of rank 1 whose other dimensions are nonsense.
  subroutine print_rank_one()
    type(hpf_mapping), parameter :: m = hpf_mapping(11, 2, 3, 2, 1, 5, -2, -3)
    type(hpf_dimension), parameter :: nonsense = hpf_dimension(cells=-1, dealing=hpf_gen_block)
    type(example) :: e
    type(hpf_found) :: alone
    type(hpf_grid_found) :: found
    integer(i64) :: i
    e%section = hpf_grid_section(hpf_grid(rank=1, dimensions=[hpf_dimension(m), nonsense, nonsense]), &
      hpf_triplet(2, -2, -1))
    do i = -3, 3
      call expect_same(transfer(hpf_ownership(m, i), [0_i32]), transfer(ownership(e, i, -1_i64, -1_i64), [0_i32]))
    end do
    do i = 0, 3
      alone = hpf_going_back(m, 0_i64, i)
      found = going_back(e, 0_i64, i)
      call expect_same([alone%refusal, alone%index, 0, 0], transfer(found, [0_i32]))
    end do
    call print_section('x(2:-2:-1)', e, 2_i64)
  end subroutine print_rank_one

  include 'same.inc'
  include 'filled.inc'

  ! Indices, triplets and lists that are left out, and sizes that do not lie side by side.
  subroutine print_left_out()
    type(example) :: e
    type(hpf_owned) :: owned
    type(hpf_grid_steps) :: steps
    integer(i32) :: apart(4)
    apart = [1, -1, 3, -1]
    e = matrix(inner, all)
    owned = hpf_grid_ownership(e%section%grid, 5_i64, 3_i64)
    print '(a, 2(i0, 1x), i0)', 'no lists: ', owned%refusal, owned%processor, owned%address
    owned = hpf_grid_ownership(e%section%grid, 5_i64)
    print '(a, i0)', 'no second index: ', owned%refusal
    steps = hpf_grid_section_steps(hpf_grid_section(e%section%grid, inner))
    print '(a, i0)', 'no second triplet: ', steps%refusal
    e = cube(inner, all, both)
    owned = hpf_grid_ownership(e%section%grid, 4_i64, 3_i64, 1_i64, first_sizes=apart(::2), third_sizes=e%third)
    print '(a, 2(i0, 1x), i0)', 'sizes apart: ', owned%refusal, owned%processor, owned%address
  end subroutine print_left_out

end program grids
