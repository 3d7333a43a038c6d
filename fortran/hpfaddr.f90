! hpfaddr: owners, local addresses, sections, assignments and checkpoints of
! one-dimensional arrays, block-cyclic or dealt by a list of sizes; and of arrays of rank 2 and
! 3 owners, local addresses and sections, as hpfaddr_grid says.
!
! A mapping is eight numbers: a template of `cells` cells (1 to 2147483647) is dealt to
! `processors` processors (1 to 1024) in blocks of `block` cells (1 to 65536); an array of `size`
! elements (0 to 2147483647) is aligned to it. Indices are the declared ones, array_lower to
! array_lower + size - 1, wherever they go in or come out. Declared index j sits on declared cell
! stride*j + offset, which is cell stride*j + offset - template_lower (stride 1 to 4096; offset
! and both bounds -2147483647 to 2147483647, and so the last index and the last declared cell).
! The first element's cell is 0 or more, the last one's below `cells`.
!
! Cells, processors, addresses and positions count from 0. The owner of cell c is processor
! mod(c / block, processors). The local address of an element is the number of elements with a
! lower index and the same owner.
!
! A template may be dealt by a list of sizes instead, one for each processor, 0 or more,
! and `cells` or more in all (GEN_BLOCK of HPF 2.0's approved extensions): the first cells
! are processor 0's, as many as sizes(1) says, the next ones processor 1's, and so on.
! Each call takes an array of 32-bit integers for it, where it takes the block otherwise.
!
! A section lower:upper:step of the array (each -2147483647 to 2147483647, step not 0) has
! count = max(0, (upper - lower + step) / step) elements, as in Fortran; position t holds element
! lower + t*step. Its first and last element, if it has any, are elements of the array.
!
! Each call takes these numbers one by one, or a mapping and a section as one thing each, as here.
! A processor's list is made of the section's elements that it owns, in rising position. A place
! is the position of one of them, or the count at the end. To fill the whole list, go on from
! hpf_first_place until the count that hpf_section_steps gives:
!
!   do while (place /= count)
!     filled = hpf_fill_words(mapping, section, processor, place, quota, list)
!     use the addresses list(1:filled%entries)
!     place = filled%place
!   end do
!
! Look at each refusal first: the place 0 of a refused call is no place. The list
! needs one entry or more, or the loop does not end.
!
! In an assignment left(section) = right(section), of two sections with the same count, the
! element at each position goes from a sender, its owner on the right, to a receiver, its owner on
! the left. hpf_transfers lists the positions of one sender and one receiver, rising, with the
! addresses on both.
!
! The storage of an array is its processors' words laid end to end, processor 0's first, each
! one's in the order of local addresses. hpf_checkpoint writes them in index order, and hpf_restore
! from index order into the storage of any mapping of as many elements: each element's word is then
! where that mapping has it.
!
! Every call returns, whatever numbers it is given; it keeps no state, and writes only the lists
! that it is lent, so any number of threads may call at once, each with its own lists.
! hpfaddr.h says what is guaranteed. files.txt has the files of the module in the order in which they
! are compiled; this one is the last.
module hpfaddr
  use, intrinsic :: iso_c_binding, only: c_int32_t, c_int64_t, c_size_t, c_double, c_ptr
  use hpfaddr_version
  use hpfaddr_numbers
  use hpfaddr_gen_block_numbers
  use hpfaddr_gen_block
  use hpfaddr_between
  use hpfaddr_grid
  implicit none
  private

  public :: hpf_mapping, hpf_gen_block_mapping, hpf_triplet
  public :: hpf_owned, hpf_found, hpf_counted, hpf_steps, hpf_placed, hpf_filled, hpf_transferred, hpf_copied
  public :: hpf_ownership, hpf_going_back, hpf_local_count, hpf_transfers, hpf_checkpoint, hpf_restore
  public :: hpf_section_steps, hpf_first_place, hpf_fill, hpf_fill_words
  public :: hpf_dimension, hpf_grid, hpf_grid_section, hpf_grid_found, hpf_grid_steps, hpf_cyclic, hpf_gen_block
  public :: hpf_grid_ownership, hpf_grid_going_back, hpf_grid_section_steps, hpf_grid_first_place
  public :: hpf_grid_fill, hpf_grid_fill_words
  public :: hpf_accepted, hpf_refused_cells, hpf_refused_processors, hpf_refused_block, hpf_refused_gen_block
  public :: hpf_refused_alignment, hpf_refused_size, hpf_refused_bounds, hpf_refused_triplet
  public :: hpf_refused_section, hpf_refused_processor_number, hpf_refused_element
  public :: hpf_refused_place, hpf_refused_quota, hpf_refused_counts, hpf_refused_room, hpf_refused_grid
  public :: hpf_least_quota, hpf_largest_quota
  public :: hpfaddr_version_major, hpfaddr_version_minor, hpfaddr_version_patch, hpfaddr_version_string

  ! The owner and the local address of the element with this declared index.
  interface hpf_ownership
    procedure plain_ownership, sizes_ownership, typed_ownership, gen_block_ownership
  end interface hpf_ownership

  ! The element that a processor, 0 to processors - 1, holds at a local address,
  ! 0 to one below its number of elements.
  interface hpf_going_back
    procedure plain_going_back, sizes_going_back, typed_going_back, gen_block_going_back
  end interface hpf_going_back

  ! The number of elements that a processor, 0 to processors - 1, holds.
  interface hpf_local_count
    procedure plain_local_count, sizes_local_count, typed_local_count, gen_block_local_count
  end interface hpf_local_count

  ! The count and the steps of a section.
  interface hpf_section_steps
    procedure plain_section_steps, sizes_section_steps, typed_section_steps, gen_block_section_steps
  end interface hpf_section_steps

  ! The place at which the list of a processor, 0 to processors - 1, begins.
  interface hpf_first_place
    procedure plain_first_place, sizes_first_place, typed_first_place, gen_block_first_place
  end interface hpf_first_place

  ! Writes the addresses of a processor's list, from a place on, into a list of
  ! bytes, 4 to an address, the lowest first. It goes on while the place is not
  ! the count, the list has an unused entry, and 3 tries or more are left of the
  ! quota, 3 to 1000000. Bytes after the entries written stay, and so do up to 3
  ! at the end. The list may be c_null_ptr only if list_bytes is 0.
  interface hpf_fill
    procedure plain_fill, sizes_fill, typed_fill, gen_block_fill
  end interface hpf_fill

  ! The same fill into an array of integers, on a machine that stores their lowest
  ! byte first. An array of no elements is a list without entries.
  interface hpf_fill_words
    procedure plain_fill_words, sizes_fill_words, typed_fill_words, gen_block_fill_words
  end interface hpf_fill_words

  ! Writes the entries of a sender, 0 to right_processors - 1, and a receiver, 0
  ! to left_processors - 1: all section positions whose element the sender owns on
  ! the right and the receiver owns on the left, each once, in rising order,
  ! whichever way the sections go, with the element's address on the sender in
  ! `sent` and on the receiver in `received`. The order is fixed from this release
  ! on: what is packed with one release is unpacked with another. On plain numbers
  ! each list has as many elements as the number after it says, on mappings all of
  ! its own; those after the entries written stay. Each side has a block or sizes.
  interface hpf_transfers
    procedure plain_transfers, plain_transfers_from_block, plain_transfers_to_block, plain_transfers_of_sizes
    procedure typed_transfers, typed_transfers_from_block, typed_transfers_to_block, typed_transfers_of_sizes
  end interface hpf_transfers

  ! Writes the words of an array in index order: saved(i) is the word of element
  ! array_lower + i - 1, for each i from 1 to size. The lists are two arrays of 64-bit
  ! integers, two of 64-bit reals, or for each a c_ptr to such words and their number,
  ! which may be c_null_ptr only if that is 0. They may not overlap. Words after the first
  ! `size` stay, in both. Too short a list is answered by 13 and the words needed.
  interface hpf_checkpoint
    procedure plain_checkpoint, plain_checkpoint_integers, plain_checkpoint_reals
    procedure sizes_checkpoint, sizes_checkpoint_integers, sizes_checkpoint_reals
    procedure typed_checkpoint, typed_checkpoint_integers, typed_checkpoint_reals
    procedure gen_block_checkpoint, gen_block_checkpoint_integers, gen_block_checkpoint_reals
  end interface hpf_checkpoint

  ! Puts words that stand in index order where the mapping has their elements, on such lists.
  interface hpf_restore
    procedure plain_restore, plain_restore_integers, plain_restore_reals
    procedure sizes_restore, sizes_restore_integers, sizes_restore_reals
    procedure typed_restore, typed_restore_integers, typed_restore_reals
    procedure gen_block_restore, gen_block_restore_integers, gen_block_restore_reals
  end interface hpf_restore

contains

  pure function typed_ownership(m, index) result(owned)
    type(hpf_mapping), intent(in) :: m
    integer(c_int64_t), intent(in) :: index
    type(hpf_owned) :: owned
    owned = plain_ownership(m%cells, m%processors, m%block, m%stride, m%offset, m%size, &
      m%array_lower, m%template_lower, index)
  end function typed_ownership

  pure function typed_going_back(m, processor, address) result(found)
    type(hpf_mapping), intent(in) :: m
    integer(c_int64_t), intent(in) :: processor, address
    type(hpf_found) :: found
    found = plain_going_back(m%cells, m%processors, m%block, m%stride, m%offset, m%size, &
      m%array_lower, m%template_lower, processor, address)
  end function typed_going_back

  pure function typed_local_count(m, processor) result(counted)
    type(hpf_mapping), intent(in) :: m
    integer(c_int64_t), intent(in) :: processor
    type(hpf_counted) :: counted
    counted = plain_local_count(m%cells, m%processors, m%block, m%stride, m%offset, m%size, &
      m%array_lower, m%template_lower, processor)
  end function typed_local_count

  pure function typed_section_steps(m, t) result(steps)
    type(hpf_mapping), intent(in) :: m
    type(hpf_triplet), intent(in) :: t
    type(hpf_steps) :: steps
    steps = plain_section_steps(m%cells, m%processors, m%block, m%stride, m%offset, m%size, &
      m%array_lower, m%template_lower, t%lower, t%upper, t%stride)
  end function typed_section_steps

  pure function typed_first_place(m, t, processor) result(placed)
    type(hpf_mapping), intent(in) :: m
    type(hpf_triplet), intent(in) :: t
    integer(c_int64_t), intent(in) :: processor
    type(hpf_placed) :: placed
    placed = plain_first_place(m%cells, m%processors, m%block, m%stride, m%offset, m%size, &
      m%array_lower, m%template_lower, t%lower, t%upper, t%stride, processor)
  end function typed_first_place

  function typed_fill(m, t, processor, place, quota, list, list_bytes) result(filled)
    type(hpf_mapping), intent(in) :: m
    type(hpf_triplet), intent(in) :: t
    integer(c_int64_t), intent(in) :: processor, place, quota
    type(c_ptr), intent(in) :: list
    integer(c_size_t), intent(in) :: list_bytes
    type(hpf_filled) :: filled
    filled = plain_fill(m%cells, m%processors, m%block, m%stride, m%offset, m%size, &
      m%array_lower, m%template_lower, t%lower, t%upper, t%stride, processor, place, quota, list, list_bytes)
  end function typed_fill

  function typed_fill_words(m, t, processor, place, quota, list) result(filled)
    type(hpf_mapping), intent(in) :: m
    type(hpf_triplet), intent(in) :: t
    integer(c_int64_t), intent(in) :: processor, place, quota
    integer(c_int32_t), intent(inout), target, contiguous :: list(:)
    type(hpf_filled) :: filled
    filled = typed_fill(m, t, processor, place, quota, start_of(list), bytes_of(list))
  end function typed_fill_words

  function plain_fill_words(cells, processors, block, stride, offset, size, &
      array_lower, template_lower, lower, upper, step, processor, place, quota, list) result(filled)
    integer(c_int64_t), intent(in) :: cells, processors, block, stride, offset, size
    integer(c_int64_t), intent(in) :: array_lower, template_lower
    integer(c_int64_t), intent(in) :: lower, upper, step
    integer(c_int64_t), intent(in) :: processor, place, quota
    integer(c_int32_t), intent(inout), target, contiguous :: list(:)
    type(hpf_filled) :: filled
    filled = typed_fill_words( &
      hpf_mapping(cells, processors, block, stride, offset, size, array_lower, template_lower), &
      hpf_triplet(lower, upper, step), processor, place, quota, list)
  end function plain_fill_words

  function typed_transfers(left, left_section, right, right_section, sender, receiver, &
      positions, sent, received) result(transferred)
    type(hpf_mapping), intent(in) :: left, right
    type(hpf_triplet), intent(in) :: left_section, right_section
    integer(c_int64_t), intent(in) :: sender, receiver
    integer(c_int32_t), intent(inout), contiguous :: positions(:), sent(:), received(:)
    type(hpf_transferred) :: transferred
    transferred = plain_transfers( &
      left%cells, left%processors, left%block, left%stride, left%offset, left%size, &
      left%array_lower, left%template_lower, &
      left_section%lower, left_section%upper, left_section%stride, &
      right%cells, right%processors, right%block, right%stride, right%offset, right%size, &
      right%array_lower, right%template_lower, &
      right_section%lower, right_section%upper, right_section%stride, sender, receiver, &
      positions, size(positions, kind=c_size_t), sent, size(sent, kind=c_size_t), &
      received, size(received, kind=c_size_t))
  end function typed_transfers

  function typed_checkpoint(m, storage, storage_words, saved, saved_words) result(copied)
    type(hpf_mapping), intent(in) :: m
    type(c_ptr), intent(in) :: storage, saved
    integer(c_size_t), intent(in) :: storage_words, saved_words
    type(hpf_copied) :: copied
    copied = plain_checkpoint(m%cells, m%processors, m%block, m%stride, m%offset, m%size, &
      m%array_lower, m%template_lower, storage, storage_words, saved, saved_words)
  end function typed_checkpoint

  function typed_checkpoint_integers(m, storage, saved) result(copied)
    type(hpf_mapping), intent(in) :: m
    integer(c_int64_t), intent(in), contiguous :: storage(:)
    integer(c_int64_t), intent(inout), contiguous :: saved(:)
    type(hpf_copied) :: copied
    copied = plain_checkpoint_integers(m%cells, m%processors, m%block, m%stride, m%offset, m%size, &
      m%array_lower, m%template_lower, storage, saved)
  end function typed_checkpoint_integers

  function typed_checkpoint_reals(m, storage, saved) result(copied)
    type(hpf_mapping), intent(in) :: m
    real(c_double), intent(in), contiguous :: storage(:)
    real(c_double), intent(inout), contiguous :: saved(:)
    type(hpf_copied) :: copied
    copied = plain_checkpoint_reals(m%cells, m%processors, m%block, m%stride, m%offset, m%size, &
      m%array_lower, m%template_lower, storage, saved)
  end function typed_checkpoint_reals

  function typed_restore(m, saved, saved_words, storage, storage_words) result(copied)
    type(hpf_mapping), intent(in) :: m
    type(c_ptr), intent(in) :: saved, storage
    integer(c_size_t), intent(in) :: saved_words, storage_words
    type(hpf_copied) :: copied
    copied = plain_restore(m%cells, m%processors, m%block, m%stride, m%offset, m%size, &
      m%array_lower, m%template_lower, saved, saved_words, storage, storage_words)
  end function typed_restore

  function typed_restore_integers(m, saved, storage) result(copied)
    type(hpf_mapping), intent(in) :: m
    integer(c_int64_t), intent(in), contiguous :: saved(:)
    integer(c_int64_t), intent(inout), contiguous :: storage(:)
    type(hpf_copied) :: copied
    copied = plain_restore_integers(m%cells, m%processors, m%block, m%stride, m%offset, m%size, &
      m%array_lower, m%template_lower, saved, storage)
  end function typed_restore_integers

  function typed_restore_reals(m, saved, storage) result(copied)
    type(hpf_mapping), intent(in) :: m
    real(c_double), intent(in), contiguous :: saved(:)
    real(c_double), intent(inout), contiguous :: storage(:)
    type(hpf_copied) :: copied
    copied = plain_restore_reals(m%cells, m%processors, m%block, m%stride, m%offset, m%size, &
      m%array_lower, m%template_lower, saved, storage)
  end function typed_restore_reals

end module hpfaddr
