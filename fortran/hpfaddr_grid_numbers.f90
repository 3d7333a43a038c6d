! hpfaddr_grid_numbers: the library's C functions on grids, what they take and what they
! answer. The module hpfaddr_grid has the calls on lists of sizes that are arrays, or that
! there are not.
module hpfaddr_grid_numbers
  use, intrinsic :: iso_c_binding, only: c_int32_t, c_int64_t, c_size_t, c_ptr
  use hpfaddr_numbers
  implicit none
  public

  ! A refusal of grids alone, first of all: is the rank 1, 2 or 3? After the questions of all
  ! dimensions: have these together at most 1024 processors, multiplied, and at most
  ! 2147483647 elements?
  integer(c_int32_t), parameter :: hpf_refused_grid = 17

  ! The dealing of a dimension: in blocks, or by a list of sizes.
  integer(c_int64_t), parameter :: hpf_cyclic = 0, hpf_gen_block = 1

  ! A dimension, as in hpf_dimension(cells=96, processors=3, block=4, size=96), or with
  ! dealing=hpf_gen_block in the place of the block; its sizes go to the calls.
  type, bind(c) :: hpf_dimension
    integer(c_int64_t) :: cells = 0
    integer(c_int64_t) :: processors = 0
    integer(c_int64_t) :: dealing = hpf_cyclic
    integer(c_int64_t) :: block = 0
    integer(c_int64_t) :: stride = 1
    integer(c_int64_t) :: offset = 0
    integer(c_int64_t) :: size = 0
    integer(c_int64_t) :: array_lower = 0
    integer(c_int64_t) :: template_lower = 0
  end type hpf_dimension

  ! A grid of rank 1, 2 or 3. Dimensions past the rank are not looked at.
  type, bind(c) :: hpf_grid
    integer(c_int64_t) :: rank = 0
    type(hpf_dimension) :: dimensions(3) = hpf_dimension()
  end type hpf_grid

  ! A section of its array: a triplet for each dimension. Those past the rank are not looked at;
  ! one within it that is left out is refused by 6.
  type, bind(c) :: hpf_grid_section
    type(hpf_grid) :: grid
    type(hpf_triplet) :: triplets(3) = hpf_triplet(0, 0, 0)
  end type hpf_grid_section

  ! Which element is at an address, by its declared index in each dimension; 0 past the rank.
  type, bind(c) :: hpf_grid_found
    integer(c_int32_t) :: refusal
    integer(c_int32_t) :: first
    integer(c_int32_t) :: second
    integer(c_int32_t) :: third
  end type hpf_grid_found

  ! How many elements a section has, and the count and the steps of each dimension; past the
  ! rank count 1 and no steps. Their refusals are 0; of a refused call every count is too.
  type, bind(c) :: hpf_grid_steps
    integer(c_int64_t) :: refusal
    integer(c_int64_t) :: count
    type(hpf_steps) :: dimensions(3)
  end type hpf_grid_steps

  interface

    pure function c_grid_ownership(grid, first_sizes, first_bytes, second_sizes, second_bytes, &
        third_sizes, third_bytes, first, second, third) result(owned) bind(c, name='hpf_grid_ownership')
      import :: c_int64_t, c_size_t, c_ptr, hpf_grid, hpf_owned
      type(hpf_grid), value :: grid
      type(c_ptr), value :: first_sizes, second_sizes, third_sizes
      integer(c_size_t), value :: first_bytes, second_bytes, third_bytes
      integer(c_int64_t), value :: first, second, third
      type(hpf_owned) :: owned
    end function c_grid_ownership

    pure function c_grid_going_back(grid, first_sizes, first_bytes, second_sizes, second_bytes, &
        third_sizes, third_bytes, processor, address) result(found) bind(c, name='hpf_grid_going_back')
      import :: c_int64_t, c_size_t, c_ptr, hpf_grid, hpf_grid_found
      type(hpf_grid), value :: grid
      type(c_ptr), value :: first_sizes, second_sizes, third_sizes
      integer(c_size_t), value :: first_bytes, second_bytes, third_bytes
      integer(c_int64_t), value :: processor, address
      type(hpf_grid_found) :: found
    end function c_grid_going_back

    pure function c_grid_section_steps(section, first_sizes, first_bytes, second_sizes, second_bytes, &
        third_sizes, third_bytes) result(steps) bind(c, name='hpf_grid_section_steps')
      import :: c_size_t, c_ptr, hpf_grid_section, hpf_grid_steps
      type(hpf_grid_section), value :: section
      type(c_ptr), value :: first_sizes, second_sizes, third_sizes
      integer(c_size_t), value :: first_bytes, second_bytes, third_bytes
      type(hpf_grid_steps) :: steps
    end function c_grid_section_steps

    pure function c_grid_first_place(section, first_sizes, first_bytes, second_sizes, second_bytes, &
        third_sizes, third_bytes, processor) result(placed) bind(c, name='hpf_grid_first_place')
      import :: c_int64_t, c_size_t, c_ptr, hpf_grid_section, hpf_placed
      type(hpf_grid_section), value :: section
      type(c_ptr), value :: first_sizes, second_sizes, third_sizes
      integer(c_size_t), value :: first_bytes, second_bytes, third_bytes
      integer(c_int64_t), value :: processor
      type(hpf_placed) :: placed
    end function c_grid_first_place

    function c_grid_fill(section, first_sizes, first_bytes, second_sizes, second_bytes, third_sizes, &
        third_bytes, processor, place, quota, list, list_bytes) result(filled) bind(c, name='hpf_grid_fill')
      import :: c_int64_t, c_size_t, c_ptr, hpf_grid_section, hpf_filled
      type(hpf_grid_section), value :: section
      type(c_ptr), value :: first_sizes, second_sizes, third_sizes, list
      integer(c_size_t), value :: first_bytes, second_bytes, third_bytes, list_bytes
      integer(c_int64_t), value :: processor, place, quota
      type(hpf_filled) :: filled
    end function c_grid_fill

  end interface

end module hpfaddr_grid_numbers
