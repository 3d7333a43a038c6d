! hpfaddr_grid: the calls on arrays of rank 1, 2 or 3, whose dimensions are each dealt to
! processors of their own.
!
! A grid is made of its dimensions, and each of these of numbers or of a mapping:
!
!   grid = hpf_grid(hpf_dimension(cells=96, processors=2, block=8, size=96), hpf_dimension(mapping))
!   section = hpf_grid_section(grid, hpf_triplet(2, 95, 1), hpf_triplet(95, 2, -1))
!
! An element's owner is the processor whose coordinates own its indices. Grid processors are
! numbered from 0, first dimension fastest. Storage is Fortran's, first dimension fastest: a
! processor's elements are an array of hpf_local_count elements in each dimension, of the
! coordinate that the processor has there, and an address counts from 0 in that array.
! Positions of a section go first dimension fastest as well, so that the triplets of the first
! dimension make its rows. include/hpfaddr_grid.h says more.
!
! Each dimension that is dealt by a list of sizes has it in the argument first_sizes,
! second_sizes or third_sizes. The others' are left out: they are not looked at.
module hpfaddr_grid
  use, intrinsic :: iso_c_binding, only: c_int32_t, c_int64_t, c_size_t, c_ptr
  use hpfaddr_numbers
  use hpfaddr_gen_block_numbers
  use hpfaddr_gen_block
  use hpfaddr_grid_numbers
  implicit none
  private

  public :: hpf_dimension, hpf_grid, hpf_grid_section, hpf_grid_found, hpf_grid_steps
  public :: hpf_grid_ownership, hpf_grid_going_back
  public :: hpf_grid_section_steps, hpf_grid_first_place, hpf_grid_fill, hpf_grid_fill_words
  public :: hpf_cyclic, hpf_gen_block, hpf_refused_grid

  interface hpf_dimension
    procedure cyclic_dimension, gen_block_dimension
  end interface hpf_dimension

  interface hpf_grid
    procedure grid_of_dimensions
  end interface hpf_grid

  interface hpf_grid_section
    procedure section_of_triplets
  end interface hpf_grid_section

contains

  pure function cyclic_dimension(mapping) result(dimension)
    type(hpf_mapping), intent(in) :: mapping
    type(hpf_dimension) :: dimension
    dimension = hpf_dimension(mapping%cells, mapping%processors, hpf_cyclic, mapping%block, mapping%stride, &
      mapping%offset, mapping%size, mapping%array_lower, mapping%template_lower)
  end function cyclic_dimension

  ! Its sizes go to the calls.
  pure function gen_block_dimension(mapping) result(dimension)
    type(hpf_gen_block_mapping), intent(in) :: mapping
    type(hpf_dimension) :: dimension
    dimension = hpf_dimension(mapping%cells, mapping%processors, hpf_gen_block, 0_c_int64_t, mapping%stride, &
      mapping%offset, mapping%size, mapping%array_lower, mapping%template_lower)
  end function gen_block_dimension

  ! The rank is the number of dimensions.
  pure function grid_of_dimensions(first, second, third) result(grid)
    type(hpf_dimension), intent(in) :: first
    type(hpf_dimension), intent(in), optional :: second, third
    type(hpf_grid) :: grid
    grid%rank = 1
    grid%dimensions(1) = first
    if (present(second)) then
      grid%rank = 2
      grid%dimensions(2) = second
    end if
    if (present(third)) then
      grid%rank = 3
      grid%dimensions(3) = third
    end if
  end function grid_of_dimensions

  pure function section_of_triplets(grid, first, second, third) result(section)
    type(hpf_grid), intent(in) :: grid
    type(hpf_triplet), intent(in) :: first
    type(hpf_triplet), intent(in), optional :: second, third
    type(hpf_grid_section) :: section
    section%grid = grid
    section%triplets(1) = first
    if (present(second)) section%triplets(2) = second
    if (present(third)) section%triplets(3) = third
  end function section_of_triplets

  ! The owner, a grid processor, and the local address of the element with these declared
  ! indices. An index that is left out, of a dimension within the rank, is refused by 9.
  pure function hpf_grid_ownership(grid, first, second, third, first_sizes, second_sizes, third_sizes) result(owned)
    type(hpf_grid), intent(in) :: grid
    integer(c_int64_t), intent(in) :: first
    integer(c_int64_t), intent(in), optional :: second, third
    integer(c_int32_t), intent(in), optional, target, contiguous :: first_sizes(:), second_sizes(:), third_sizes(:)
    type(hpf_owned) :: owned
    owned = c_grid_ownership(grid, start_of(first_sizes), bytes_of(first_sizes), &
      start_of(second_sizes), bytes_of(second_sizes), start_of(third_sizes), bytes_of(third_sizes), &
      first, index_or_none(second), index_or_none(third))
  end function hpf_grid_ownership

  ! No array has an index as large as the one that stands for none.
  pure function index_or_none(index) result(given)
    integer(c_int64_t), intent(in), optional :: index
    integer(c_int64_t) :: given
    given = huge(given)
    if (present(index)) given = index
  end function index_or_none

  ! The element that a grid processor holds at a local address.
  pure function hpf_grid_going_back(grid, processor, address, first_sizes, second_sizes, third_sizes) result(found)
    type(hpf_grid), intent(in) :: grid
    integer(c_int64_t), intent(in) :: processor, address
    integer(c_int32_t), intent(in), optional, target, contiguous :: first_sizes(:), second_sizes(:), third_sizes(:)
    type(hpf_grid_found) :: found
    found = c_grid_going_back(grid, start_of(first_sizes), bytes_of(first_sizes), &
      start_of(second_sizes), bytes_of(second_sizes), start_of(third_sizes), bytes_of(third_sizes), processor, address)
  end function hpf_grid_going_back

  ! The count of a section, and each dimension's count and steps.
  pure function hpf_grid_section_steps(section, first_sizes, second_sizes, third_sizes) result(steps)
    type(hpf_grid_section), intent(in) :: section
    integer(c_int32_t), intent(in), optional, target, contiguous :: first_sizes(:), second_sizes(:), third_sizes(:)
    type(hpf_grid_steps) :: steps
    steps = c_grid_section_steps(section, start_of(first_sizes), bytes_of(first_sizes), &
      start_of(second_sizes), bytes_of(second_sizes), start_of(third_sizes), bytes_of(third_sizes))
  end function hpf_grid_section_steps

  ! The place at which the list of a grid processor begins, or the count if it has no element.
  pure function hpf_grid_first_place(section, processor, first_sizes, second_sizes, third_sizes) result(placed)
    type(hpf_grid_section), intent(in) :: section
    integer(c_int64_t), intent(in) :: processor
    integer(c_int32_t), intent(in), optional, target, contiguous :: first_sizes(:), second_sizes(:), third_sizes(:)
    type(hpf_placed) :: placed
    placed = c_grid_first_place(section, start_of(first_sizes), bytes_of(first_sizes), &
      start_of(second_sizes), bytes_of(second_sizes), start_of(third_sizes), bytes_of(third_sizes), processor)
  end function hpf_grid_first_place

  ! Writes the addresses of a grid processor's list, from a place on, as hpf_fill does. A fill
  ! may end anywhere in a row.
  function hpf_grid_fill(section, processor, place, quota, list, list_bytes, &
      first_sizes, second_sizes, third_sizes) result(filled)
    type(hpf_grid_section), intent(in) :: section
    integer(c_int64_t), intent(in) :: processor, place, quota
    type(c_ptr), intent(in) :: list
    integer(c_size_t), intent(in) :: list_bytes
    integer(c_int32_t), intent(in), optional, target, contiguous :: first_sizes(:), second_sizes(:), third_sizes(:)
    type(hpf_filled) :: filled
    filled = c_grid_fill(section, start_of(first_sizes), bytes_of(first_sizes), &
      start_of(second_sizes), bytes_of(second_sizes), start_of(third_sizes), bytes_of(third_sizes), &
      processor, place, quota, list, list_bytes)
  end function hpf_grid_fill

  ! The same fill into an array of integers, as hpf_fill_words.
  function hpf_grid_fill_words(section, processor, place, quota, list, &
      first_sizes, second_sizes, third_sizes) result(filled)
    type(hpf_grid_section), intent(in) :: section
    integer(c_int64_t), intent(in) :: processor, place, quota
    integer(c_int32_t), intent(inout), target, contiguous :: list(:)
    integer(c_int32_t), intent(in), optional, target, contiguous :: first_sizes(:), second_sizes(:), third_sizes(:)
    type(hpf_filled) :: filled
    filled = hpf_grid_fill(section, processor, place, quota, start_of(list), bytes_of(list), &
      first_sizes, second_sizes, third_sizes)
  end function hpf_grid_fill_words

end module hpfaddr_grid
