! hpfaddr_numbers: the library's C functions on plain numbers, their answers and
! their refusals, and a mapping and a section as one thing each. The module hpfaddr,
! which programs use, says what the numbers mean, and has each call on both forms.
module hpfaddr_numbers
  use, intrinsic :: iso_c_binding, only: c_int32_t, c_int64_t, c_size_t, c_double, c_ptr, c_loc, c_null_ptr
  implicit none
  public
  private :: start_of_integers, start_of_reals

  ! The component `refusal` of an answer: 0, or the number of the first question
  ! answered no, of those that concern the call; every other component is then 0,
  ! but for what 13 adds, and a lent list is left as it was. The questions are asked
  ! in this order; 5 has two halves, with 15 between them; a list of sizes is asked 16,
  ! and a block 3. Transfers ask 1 to 7, with 15 and 16, of the left section, then of the
  ! right one, 8 of the sender, 8 of the receiver, 12 and 13; checkpoints and restores
  ! ask 1 to 5, with 15 and 16, and 13.
  integer(c_int32_t), parameter :: hpf_accepted = 0
  integer(c_int32_t), parameter :: hpf_refused_cells = 1 ! is cells in its range?
  integer(c_int32_t), parameter :: hpf_refused_processors = 2 ! is processors in its range?
  integer(c_int32_t), parameter :: hpf_refused_block = 3 ! is block in its range?
  ! are there as many sizes as processors, none below 0, and at least `cells` in all?
  integer(c_int32_t), parameter :: hpf_refused_gen_block = 16
  integer(c_int32_t), parameter :: hpf_refused_alignment = 4 ! are stride and offset in their ranges?
  ! is size in its range? after 15: are the elements' cells from 0 to cells - 1?
  integer(c_int32_t), parameter :: hpf_refused_size = 5
  ! are the lower bounds, the last index, if any, and the last declared cell each
  ! from -2147483647 to 2147483647?
  integer(c_int32_t), parameter :: hpf_refused_bounds = 15
  ! are lower, upper and step in their ranges, and is step not 0?
  integer(c_int32_t), parameter :: hpf_refused_triplet = 6
  ! are the section's first and last elements, if any, elements of the array?
  integer(c_int32_t), parameter :: hpf_refused_section = 7
  ! is the processor from 0 to processors - 1?
  integer(c_int32_t), parameter :: hpf_refused_processor_number = 8
  ! is there an element of this index, or at this address?
  integer(c_int32_t), parameter :: hpf_refused_element = 9
  ! is the place the count, or a position whose element the processor owns?
  integer(c_int32_t), parameter :: hpf_refused_place = 10
  integer(c_int32_t), parameter :: hpf_refused_quota = 11 ! is the quota in its range?
  integer(c_int32_t), parameter :: hpf_refused_counts = 12 ! have both sections the same count?
  ! has each list room: for the pair's entries, for the array's words?
  integer(c_int32_t), parameter :: hpf_refused_room = 13

  ! The quotas of a fill. A fill goes on only while it has the least of them left.
  integer(c_int64_t), parameter :: hpf_least_quota = 3
  integer(c_int64_t), parameter :: hpf_largest_quota = 1000000

  ! A mapping. Bounds that are left out are 0, as in
  ! hpf_mapping(cells=96, processors=3, block=4, stride=1, offset=0, size=96).
  type :: hpf_mapping
    integer(c_int64_t) :: cells, processors, block, stride, offset, size
    integer(c_int64_t) :: array_lower = 0, template_lower = 0
  end type hpf_mapping

  ! A section. Its step is the stride of a Fortran subscript triplet.
  type, bind(c) :: hpf_triplet
    integer(c_int64_t) :: lower, upper, stride
  end type hpf_triplet

  ! Where an element is: its owner and its local address there.
  type, bind(c) :: hpf_owned
    integer(c_int32_t) :: refusal
    integer(c_int32_t) :: processor
    integer(c_int32_t) :: address
  end type hpf_owned

  ! Which element is at an address, by its declared index.
  type, bind(c) :: hpf_found
    integer(c_int32_t) :: refusal
    integer(c_int32_t) :: index
  end type hpf_found

  ! How many elements a processor holds: the storage to allocate there.
  type, bind(c) :: hpf_counted
    integer(c_int32_t) :: refusal
    integer(c_int32_t) :: elements
  end type hpf_counted

  ! How many elements a section has, and its 0, 1 or 2 steps from one element of
  ! a processor to the next: the processor step, or the one step, and the return
  ! step, whose column move is negative. The components of steps that there are
  ! not are 0.
  type, bind(c) :: hpf_steps
    integer(c_int64_t) :: refusal
    integer(c_int64_t) :: count
    integer(c_int64_t) :: steps
    integer(c_int64_t) :: cells
    integer(c_int64_t) :: courses
    integer(c_int64_t) :: column
    integer(c_int64_t) :: return_cells
    integer(c_int64_t) :: return_courses
    integer(c_int64_t) :: return_column
  end type hpf_steps

  ! Where a processor's list begins: the lowest position whose element it owns,
  ! or the count if none.
  type, bind(c) :: hpf_placed
    integer(c_int32_t) :: refusal
    integer(c_int32_t) :: place
  end type hpf_placed

  ! What a fill did: how many addresses it wrote, the tries it paid for them, and
  ! the place where the next fill goes on, or the count at the end.
  type, bind(c) :: hpf_filled
    integer(c_int32_t) :: refusal
    integer(c_int32_t) :: entries
    integer(c_int32_t) :: tries
    integer(c_int32_t) :: place
  end type hpf_filled

  ! What a transfer did: how many entries the pair has, or, with refusal 13, how
  ! many it needs room for.
  type, bind(c) :: hpf_transferred
    integer(c_int32_t) :: refusal
    integer(c_int32_t) :: entries
    integer(c_int32_t) :: needed
  end type hpf_transferred

  ! What a checkpoint or a restore did: with refusal 13, how many words each list
  ! needs.
  type, bind(c) :: hpf_copied
    integer(c_int32_t) :: refusal
    integer(c_int32_t) :: needed
  end type hpf_copied

  interface

    pure function plain_ownership(cells, processors, block, stride, offset, size, &
        array_lower, template_lower, index) result(owned) bind(c, name='hpf_ownership')
      import :: c_int64_t, hpf_owned
      integer(c_int64_t), value :: cells, processors, block, stride, offset, size
      integer(c_int64_t), value :: array_lower, template_lower
      integer(c_int64_t), value :: index
      type(hpf_owned) :: owned
    end function plain_ownership

    pure function plain_going_back(cells, processors, block, stride, offset, size, &
        array_lower, template_lower, processor, address) result(found) bind(c, name='hpf_going_back')
      import :: c_int64_t, hpf_found
      integer(c_int64_t), value :: cells, processors, block, stride, offset, size
      integer(c_int64_t), value :: array_lower, template_lower
      integer(c_int64_t), value :: processor, address
      type(hpf_found) :: found
    end function plain_going_back

    pure function plain_local_count(cells, processors, block, stride, offset, size, &
        array_lower, template_lower, processor) result(counted) bind(c, name='hpf_local_count')
      import :: c_int64_t, hpf_counted
      integer(c_int64_t), value :: cells, processors, block, stride, offset, size
      integer(c_int64_t), value :: array_lower, template_lower
      integer(c_int64_t), value :: processor
      type(hpf_counted) :: counted
    end function plain_local_count

    pure function plain_section_steps(cells, processors, block, stride, offset, size, &
        array_lower, template_lower, lower, upper, step) result(steps) bind(c, name='hpf_section_steps')
      import :: c_int64_t, hpf_steps
      integer(c_int64_t), value :: cells, processors, block, stride, offset, size
      integer(c_int64_t), value :: array_lower, template_lower
      integer(c_int64_t), value :: lower, upper, step
      type(hpf_steps) :: steps
    end function plain_section_steps

    pure function plain_first_place(cells, processors, block, stride, offset, size, &
        array_lower, template_lower, lower, upper, step, processor) &
        result(placed) bind(c, name='hpf_first_place')
      import :: c_int64_t, hpf_placed
      integer(c_int64_t), value :: cells, processors, block, stride, offset, size
      integer(c_int64_t), value :: array_lower, template_lower
      integer(c_int64_t), value :: lower, upper, step
      integer(c_int64_t), value :: processor
      type(hpf_placed) :: placed
    end function plain_first_place

    function plain_fill(cells, processors, block, stride, offset, size, &
        array_lower, template_lower, lower, upper, step, processor, place, quota, list, list_bytes) &
        result(filled) bind(c, name='hpf_fill')
      import :: c_int64_t, c_size_t, c_ptr, hpf_filled
      integer(c_int64_t), value :: cells, processors, block, stride, offset, size
      integer(c_int64_t), value :: array_lower, template_lower
      integer(c_int64_t), value :: lower, upper, step
      integer(c_int64_t), value :: processor, place, quota
      type(c_ptr), value :: list
      integer(c_size_t), value :: list_bytes
      type(hpf_filled) :: filled
    end function plain_fill

    function plain_transfers(left_cells, left_processors, left_block, left_stride, left_offset, &
        left_size, left_array_lower, left_template_lower, left_lower, left_upper, left_step, &
        right_cells, right_processors, right_block, right_stride, right_offset, &
        right_size, right_array_lower, right_template_lower, right_lower, right_upper, right_step, &
        sender, receiver, positions, positions_entries, sent, sent_entries, &
        received, received_entries) result(transferred) bind(c, name='hpf_transfers')
      import :: c_int32_t, c_int64_t, c_size_t, hpf_transferred
      integer(c_int64_t), value :: left_cells, left_processors, left_block
      integer(c_int64_t), value :: left_stride, left_offset, left_size
      integer(c_int64_t), value :: left_array_lower, left_template_lower
      integer(c_int64_t), value :: left_lower, left_upper, left_step
      integer(c_int64_t), value :: right_cells, right_processors, right_block
      integer(c_int64_t), value :: right_stride, right_offset, right_size
      integer(c_int64_t), value :: right_array_lower, right_template_lower
      integer(c_int64_t), value :: right_lower, right_upper, right_step
      integer(c_int64_t), value :: sender, receiver
      integer(c_int32_t), intent(inout) :: positions(*), sent(*), received(*)
      integer(c_size_t), value :: positions_entries, sent_entries, received_entries
      type(hpf_transferred) :: transferred
    end function plain_transfers

    function plain_checkpoint(cells, processors, block, stride, offset, size, &
        array_lower, template_lower, storage, storage_words, saved, saved_words) &
        result(copied) bind(c, name='hpf_checkpoint')
      import :: c_int64_t, c_size_t, c_ptr, hpf_copied
      integer(c_int64_t), value :: cells, processors, block, stride, offset, size
      integer(c_int64_t), value :: array_lower, template_lower
      type(c_ptr), value :: storage, saved
      integer(c_size_t), value :: storage_words, saved_words
      type(hpf_copied) :: copied
    end function plain_checkpoint

    function plain_restore(cells, processors, block, stride, offset, size, &
        array_lower, template_lower, saved, saved_words, storage, storage_words) &
        result(copied) bind(c, name='hpf_restore')
      import :: c_int64_t, c_size_t, c_ptr, hpf_copied
      integer(c_int64_t), value :: cells, processors, block, stride, offset, size
      integer(c_int64_t), value :: array_lower, template_lower
      type(c_ptr), value :: saved, storage
      integer(c_size_t), value :: saved_words, storage_words
      type(hpf_copied) :: copied
    end function plain_restore

  end interface

  ! Where the words of an array begin, for C. One of no words begins nowhere.
  interface start_of
    procedure start_of_integers, start_of_reals
  end interface start_of

contains

  function start_of_integers(words) result(start)
    integer(c_int64_t), intent(in), target, contiguous :: words(:)
    type(c_ptr) :: start
    start = c_null_ptr
    if (size(words, kind=c_size_t) > 0) start = c_loc(words)
  end function start_of_integers

  function start_of_reals(words) result(start)
    real(c_double), intent(in), target, contiguous :: words(:)
    type(c_ptr) :: start
    start = c_null_ptr
    if (size(words, kind=c_size_t) > 0) start = c_loc(words)
  end function start_of_reals

  ! Checkpoints and restores of arrays, each of all its words; none is copied first.
  function plain_checkpoint_integers(cells, processors, block, stride, offset, size, &
      array_lower, template_lower, storage, saved) result(copied)
    integer(c_int64_t), intent(in) :: cells, processors, block, stride, offset, size
    integer(c_int64_t), intent(in) :: array_lower, template_lower
    integer(c_int64_t), intent(in), target, contiguous :: storage(:)
    integer(c_int64_t), intent(inout), target, contiguous :: saved(:)
    type(hpf_copied) :: copied
    copied = plain_checkpoint(cells, processors, block, stride, offset, size, array_lower, template_lower, &
      start_of(storage), ubound(storage, 1, c_size_t), start_of(saved), ubound(saved, 1, c_size_t))
  end function plain_checkpoint_integers

  function plain_checkpoint_reals(cells, processors, block, stride, offset, size, &
      array_lower, template_lower, storage, saved) result(copied)
    integer(c_int64_t), intent(in) :: cells, processors, block, stride, offset, size
    integer(c_int64_t), intent(in) :: array_lower, template_lower
    real(c_double), intent(in), target, contiguous :: storage(:)
    real(c_double), intent(inout), target, contiguous :: saved(:)
    type(hpf_copied) :: copied
    copied = plain_checkpoint(cells, processors, block, stride, offset, size, array_lower, template_lower, &
      start_of(storage), ubound(storage, 1, c_size_t), start_of(saved), ubound(saved, 1, c_size_t))
  end function plain_checkpoint_reals

  function plain_restore_integers(cells, processors, block, stride, offset, size, &
      array_lower, template_lower, saved, storage) result(copied)
    integer(c_int64_t), intent(in) :: cells, processors, block, stride, offset, size
    integer(c_int64_t), intent(in) :: array_lower, template_lower
    integer(c_int64_t), intent(in), target, contiguous :: saved(:)
    integer(c_int64_t), intent(inout), target, contiguous :: storage(:)
    type(hpf_copied) :: copied
    copied = plain_restore(cells, processors, block, stride, offset, size, array_lower, template_lower, &
      start_of(saved), ubound(saved, 1, c_size_t), start_of(storage), ubound(storage, 1, c_size_t))
  end function plain_restore_integers

  function plain_restore_reals(cells, processors, block, stride, offset, size, &
      array_lower, template_lower, saved, storage) result(copied)
    integer(c_int64_t), intent(in) :: cells, processors, block, stride, offset, size
    integer(c_int64_t), intent(in) :: array_lower, template_lower
    real(c_double), intent(in), target, contiguous :: saved(:)
    real(c_double), intent(inout), target, contiguous :: storage(:)
    type(hpf_copied) :: copied
    copied = plain_restore(cells, processors, block, stride, offset, size, array_lower, template_lower, &
      start_of(saved), ubound(saved, 1, c_size_t), start_of(storage), ubound(storage, 1, c_size_t))
  end function plain_restore_reals

end module hpfaddr_numbers
