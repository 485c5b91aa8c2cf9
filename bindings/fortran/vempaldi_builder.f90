! A builder of loop tables for Fortran (docs/TABLE.md says what their bytes are). Neither the library nor the module vempaldi is needed.
!
!   type(table_builder) :: b
!   integer :: from, to
!   call b%array(12, from)
!   call b%array(12, to)
!   call b%open_loop(1, 10, to, 0)             ! for i = 1 to 10: to[i] =
!   call b%read(from, -1)                      !     from[i-1]
!   call b%read(from, 1)                       !     from[i+1]
!   call b%operation(vempaldi_add)             !     +
!   call b%end()
!   if (b%error == vempaldi_built) call vempaldi_check(b%bytes(:b%length), answer)
!
! Elements, like everything in a table, count from 0: docs/TABLE.md says how a Fortran loop's indices become a table's.
!
! The builder writes what it is told, a record a call, and nothing else: whether arrays come before loops, whether a body leaves one
! number and whether an index is inside its array is for vempaldi_check to say. Two things alone are errors here: a number that its
! field cannot hold, and a record that there is no room for. The first error stays in `error`, and from then on nothing more is written;
! `records` is then the number, counted from 0, of the record that could not be written. Nothing is allocated.
!
! The numbers of a call are all integer(int32) or all integer(int64).
module vempaldi_builder
  use, intrinsic :: iso_c_binding, only: c_int8_t
  use, intrinsic :: iso_fortran_env, only: int32, int64
  implicit none
  private

  ! How many bytes follow a record's kind byte, by kind: array, loop, read, constant, operation, end, statement. There is no
  ! kind 0.
  integer, parameter, public :: vempaldi_body_lengths(0:7) = [0, 4, 11, 3, 4, 1, 0, 3]

  ! The room: the 2,364 bytes that decide, and the rest of the longest record that begins at the last of them. Every accepted table fits.
  ! Where a record does not, the bytes that decide are all there, so the library's answer is that of the whole table.
  integer, parameter, public :: vempaldi_builder_bytes = 2364 + 11

  integer, parameter, public :: vempaldi_record_array = 1, vempaldi_record_loop = 2, vempaldi_record_read = 3
  integer, parameter, public :: vempaldi_record_constant = 4, vempaldi_record_operation = 5, vempaldi_record_end = 6
  integer, parameter, public :: vempaldi_record_statement = 7

  ! The operations of a body. All but negate take two waiting numbers, the later one being the right operand.
  integer, parameter, public :: vempaldi_add = 1, vempaldi_subtract = 2, vempaldi_multiply = 3, vempaldi_divide = 4
  integer, parameter, public :: vempaldi_negate = 5

  ! no_field: a number that its field cannot hold. no_room: a record too many for the room; the table would be refused, and vempaldi_check
  ! of the bytes says with what.
  integer, parameter, public :: vempaldi_built = 0, vempaldi_no_field = 1, vempaldi_no_room = 2

  integer(int64), parameter :: most_word = 4294967295_int64, most_byte = 255_int64, most_offset = 32767_int64

  type, public :: table_builder
    integer(c_int8_t) :: bytes(vempaldi_builder_bytes) = 0_c_int8_t
    integer :: length = 0   ! how many of the bytes are written
    integer :: records = 0  ! how many records they are
    integer :: arrays = 0   ! how many arrays were asked for: the next one's number
    integer :: error = vempaldi_built
  contains
    procedure :: start
    generic :: array => array_32, array_64
    generic :: open_loop => open_loop_32, open_loop_64
    generic :: statement => statement_32, statement_64
    generic :: read => read_32, read_64
    generic :: constant => constant_32, constant_64
    generic :: operation => operation_32, operation_64
    procedure :: end => end_table
    procedure, private :: array_32, array_64, open_loop_32, open_loop_64, statement_32, statement_64, read_32, read_64
    procedure, private :: constant_32, constant_64, operation_32, operation_64, fits, refers, refer, begins, put
  end type

contains

  ! Begins an empty table. A builder that is declared is empty; this is for using one again.
  subroutine start(self)
    class(table_builder), intent(inout) :: self
    self%length = 0
    self%records = 0
    self%arrays = 0
    self%error = vempaldi_built
  end subroutine

  ! An array of `length` elements. `number` is how loops and reads name it: 0 for the first, and so on.
  subroutine array_64(self, length, number)
    class(table_builder), intent(inout) :: self
    integer(int64), intent(in) :: length
    integer(int64), intent(out) :: number
    number = self%arrays
    self%arrays = self%arrays + 1
    if (.not. self%fits(length, 0_int64, most_word)) return
    if (self%begins(vempaldi_record_array)) call self%put(length, 4)
  end subroutine

  ! Opens a loop: i goes from `first` to `last`, and element i + `offset` of the array `destination` is stored. The items of its body
  ! follow; a further statement, the next loop or the end closes it.
  subroutine open_loop_64(self, first, last, destination, offset)
    class(table_builder), intent(inout) :: self
    integer(int64), intent(in) :: first, last, destination, offset
    if (.not. self%fits(first, 0_int64, most_word)) return
    if (.not. self%fits(last, 0_int64, most_word)) return
    if (.not. self%refers(destination, offset)) return
    if (.not. self%begins(vempaldi_record_loop)) return
    call self%put(first, 4)
    call self%put(last, 4)
    call self%put(destination, 1)
    call self%put(offset, 2)
  end subroutine

  ! Opens a further statement of the loop, behind a finished body: in the same iteration, element i + `offset` of `array` is stored next.
  ! The items of its own body follow. A loop has up to four statements, that of open_loop among them.
  subroutine statement_64(self, array, offset)
    class(table_builder), intent(inout) :: self
    integer(int64), intent(in) :: array, offset
    call self%refer(vempaldi_record_statement, array, offset)
  end subroutine

  ! An item: element i + `offset` of an array.
  subroutine read_64(self, array, offset)
    class(table_builder), intent(inout) :: self
    integer(int64), intent(in) :: array, offset
    call self%refer(vempaldi_record_read, array, offset)
  end subroutine

  ! An item: a whole number, 0 to 4,294,967,295.
  subroutine constant_64(self, value)
    class(table_builder), intent(inout) :: self
    integer(int64), intent(in) :: value
    if (.not. self%fits(value, 0_int64, most_word)) return
    if (self%begins(vempaldi_record_constant)) call self%put(value, 4)
  end subroutine

  ! An item: an operation, vempaldi_add to vempaldi_negate.
  subroutine operation_64(self, operation)
    class(table_builder), intent(inout) :: self
    integer(int64), intent(in) :: operation
    if (.not. self%fits(operation, 0_int64, most_byte)) return
    if (self%begins(vempaldi_record_operation)) call self%put(operation, 1)
  end subroutine

  ! The end record. If `error` is vempaldi_built then, the table is bytes(:length).
  subroutine end_table(self)
    class(table_builder), intent(inout) :: self
    logical :: ignored
    ignored = self%begins(vempaldi_record_end)
  end subroutine

  subroutine array_32(self, length, number)
    class(table_builder), intent(inout) :: self
    integer(int32), intent(in) :: length
    integer(int32), intent(out) :: number
    integer(int64) :: wide
    call self%array_64(int(length, int64), wide)
    number = int(wide, int32)
  end subroutine

  subroutine open_loop_32(self, first, last, destination, offset)
    class(table_builder), intent(inout) :: self
    integer(int32), intent(in) :: first, last, destination, offset
    call self%open_loop_64(int(first, int64), int(last, int64), int(destination, int64), int(offset, int64))
  end subroutine

  subroutine statement_32(self, array, offset)
    class(table_builder), intent(inout) :: self
    integer(int32), intent(in) :: array, offset
    call self%statement_64(int(array, int64), int(offset, int64))
  end subroutine

  subroutine read_32(self, array, offset)
    class(table_builder), intent(inout) :: self
    integer(int32), intent(in) :: array, offset
    call self%read_64(int(array, int64), int(offset, int64))
  end subroutine

  subroutine constant_32(self, value)
    class(table_builder), intent(inout) :: self
    integer(int32), intent(in) :: value
    call self%constant_64(int(value, int64))
  end subroutine

  subroutine operation_32(self, operation)
    class(table_builder), intent(inout) :: self
    integer(int32), intent(in) :: operation
    call self%operation_64(int(operation, int64))
  end subroutine

  ! Whether a number is in its field's range; if not, that is the error, unless there was one before.
  logical function fits(self, number, least, most)
    class(table_builder), intent(inout) :: self
    integer(int64), intent(in) :: number, least, most
    if (self%error == vempaldi_built .and. (number < least .or. number > most)) self%error = vempaldi_no_field
    fits = self%error == vempaldi_built
  end function

  ! Whether an array's number and an offset fit their fields.
  logical function refers(self, array, offset)
    class(table_builder), intent(inout) :: self
    integer(int64), intent(in) :: array, offset
    refers = self%fits(array, 0_int64, most_byte)
    if (refers) refers = self%fits(offset, -most_offset - 1, most_offset)
  end function

  ! A record whose fields are an array's number and an offset.
  subroutine refer(self, kind, array, offset)
    class(table_builder), intent(inout) :: self
    integer, intent(in) :: kind
    integer(int64), intent(in) :: array, offset
    if (.not. self%refers(array, offset)) return
    if (.not. self%begins(kind)) return
    call self%put(array, 1)
    call self%put(offset, 2)
  end subroutine

  ! Writes a record's kind byte if there is room for all of the record and was no error; its fields follow then.
  logical function begins(self, kind)
    class(table_builder), intent(inout) :: self
    integer, intent(in) :: kind
    begins = .false.
    if (self%error /= vempaldi_built) return
    if (1 + vempaldi_body_lengths(kind) > vempaldi_builder_bytes - self%length) then
      self%error = vempaldi_no_room
      return
    end if
    begins = .true.
    self%records = self%records + 1
    call self%put(int(kind, int64), 1)
  end function

  ! Writes a number, the lowest byte first. A byte above 127 is the negative number with the same bits, as is a negative offset.
  subroutine put(self, number, bytes)
    class(table_builder), intent(inout) :: self
    integer(int64), intent(in) :: number
    integer, intent(in) :: bytes
    integer :: at
    integer(int64) :: low
    do at = 0, bytes - 1
      low = ibits(number, 8 * at, 8)
      if (low > 127) low = low - 256
      self%bytes(self%length + 1) = int(low, c_int8_t)
      self%length = self%length + 1
    end do
  end subroutine

end module
