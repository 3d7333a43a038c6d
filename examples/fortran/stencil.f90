! A sweep of a five-point stencil over the inner points u(2:n-1, 2:n-1) of a matrix that is
! dealt to 2 x 2 processors, its rows in blocks of 2 and its columns in blocks of 3. Each
! processor holds its elements in storage of its own, lists the inner points among them by
! their addresses, and there adds up their four neighbours. The sums are held to those of the
! same sweep over the array itself.
program stencil
  use, intrinsic :: iso_c_binding, only: i64 => c_int64_t, r64 => c_double, c_int32_t
  use hpfaddr
  implicit none

  integer(i64), parameter :: n = 10
  ! u(i, j) is on cell i - 1 of the rows' template, and on cell j - 1 of the columns'.
  type(hpf_mapping), parameter :: rows = hpf_mapping(cells=n, processors=2, block=2, &
    stride=1, offset=-1, size=n, array_lower=1)
  type(hpf_mapping), parameter :: columns = hpf_mapping(cells=n, processors=2, block=3, &
    stride=1, offset=-1, size=n, array_lower=1)
  integer(i64), parameter :: processors = rows%processors * columns%processors
  type(hpf_triplet), parameter :: inner = hpf_triplet(lower=2, upper=n - 1, stride=1)

  ! What a processor holds, by local address.
  type :: memory
    real(r64), allocatable :: u(:), sums(:)
  end type memory

  type(hpf_grid) :: grid
  type(hpf_grid_section) :: inner_points
  type(memory) :: machine(0:processors - 1)
  real(r64) :: u(n, n), sums(n, n)
  integer(i64) :: processor, i, j

  grid = hpf_grid(hpf_dimension(rows), hpf_dimension(columns))
  inner_points = hpf_grid_section(grid, inner, inner)
  u = reshape([((real(i**2 + 3 * j, r64), i = 1, n), j = 1, n)], shape(u))
  do processor = 0, processors - 1
    call load(processor)
  end do
  do processor = 0, processors - 1
    call sweep(processor)
  end do

  sums = 0
  sums(2:n - 1, 2:n - 1) = u(:n - 2, 2:n - 1) + u(3:, 2:n - 1) + u(2:n - 1, :n - 2) + u(2:n - 1, 3:)
  do processor = 0, processors - 1
    call compare(processor)
  end do
  print '(a, i0)', 'all as on the array, in all ', nint(sum(sums))

contains

  ! The elements that a processor holds: as many as its rows, times its columns.
  subroutine load(processor)
    integer(i64), intent(in) :: processor
    type(hpf_counted) :: in_rows, in_columns
    type(hpf_grid_found) :: element
    integer(i64) :: address, held
    in_rows = hpf_local_count(rows, mod(processor, rows%processors))
    in_columns = hpf_local_count(columns, processor / rows%processors)
    if (in_rows%refusal /= hpf_accepted .or. in_columns%refusal /= hpf_accepted) error stop 'a mapping is refused'
    held = in_rows%elements * in_columns%elements
    allocate (machine(processor)%u(0:held - 1), machine(processor)%sums(0:held - 1))
    do address = 0, held - 1
      element = hpf_grid_going_back(grid, processor, address)
      machine(processor)%u(address) = u(element%first, element%second)
    end do
    machine(processor)%sums = 0
    print '(5(a, i0))', 'processor ', processor, ' holds ', in_rows%elements, ' x ', in_columns%elements, ' elements'
  end subroutine load

  ! The inner points that a processor holds, six at a time, wherever that is in a row.
  subroutine sweep(processor)
    integer(i64), intent(in) :: processor
    type(hpf_grid_steps) :: steps
    type(hpf_placed) :: first
    type(hpf_filled) :: filled
    integer(c_int32_t) :: list(6)
    integer(i64) :: place
    integer :: entry
    steps = hpf_grid_section_steps(inner_points)
    first = hpf_grid_first_place(inner_points, processor)
    if (steps%refusal /= hpf_accepted .or. first%refusal /= hpf_accepted) error stop 'the section is refused'
    write (*, '(a, i0, a)', advance='no') 'processor ', processor, ' adds up at'
    place = first%place
    do while (place /= steps%count)
      filled = hpf_grid_fill_words(inner_points, processor, place, hpf_largest_quota, list)
      do entry = 1, filled%entries
        call add_neighbours(processor, int(list(entry), i64))
      end do
      write (*, '(*(:, 1x, i0))', advance='no') list(:filled%entries)
      place = filled%place
    end do
    write (*, '()')
  end subroutine sweep

  subroutine add_neighbours(processor, address)
    integer(i64), intent(in) :: processor, address
    type(hpf_grid_found) :: point
    integer(i64) :: i, j
    point = hpf_grid_going_back(grid, processor, address)
    i = point%first
    j = point%second
    machine(processor)%sums(address) = stored(i - 1, j) + stored(i + 1, j) + stored(i, j - 1) + stored(i, j + 1)
  end subroutine add_neighbours

  ! u(i, j) from the memory of its owner.
  function stored(i, j)
    integer(i64), intent(in) :: i, j
    real(r64) :: stored
    type(hpf_owned) :: owned
    owned = hpf_grid_ownership(grid, i, j)
    if (owned%refusal /= hpf_accepted) error stop 'there is no such element'
    stored = machine(owned%processor)%u(owned%address)
  end function stored

  ! Each sum is that of the array, and what is no inner point has none.
  subroutine compare(processor)
    integer(i64), intent(in) :: processor
    type(hpf_grid_found) :: point
    integer(i64) :: address
    do address = 0, size(machine(processor)%sums) - 1
      point = hpf_grid_going_back(grid, processor, address)
      if (abs(machine(processor)%sums(address) - sums(point%first, point%second)) > 0) error stop 'a sum differs'
    end do
  end subroutine compare

end program stencil
