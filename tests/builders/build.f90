! Makes the calls of a script with the Fortran builder, as build.c does with C's: the same lines in, the same lines out. Numbers that fit are
! given in every second call as integer(int32), the others as integer(int64).
program build
  use, intrinsic :: iso_fortran_env, only: int32, int64, error_unit
  use vempaldi_builder
  implicit none
  type(table_builder) :: b
  character(200) :: line, numbers
  character(20) :: name
  integer(int64) :: n(4)
  integer :: status
  logical :: narrow

  narrow = .false.
  do
    read (*, '(a)', iostat=status) line
    if (status /= 0) exit
    if (line == '') cycle
    n = 0
    ! The slash ends a line's numbers, so that those that are not there stay 0.
    read (line, *) name
    numbers = trim(line(len_trim(name) + 1:))//' /'
    read (numbers, *) n
    narrow = .not. narrow
    if (narrow .and. all(abs(n) <= huge(0_int32))) then
      call call_32(int(n, int32))
    else
      call call_64
    end if
  end do

contains

  subroutine call_64
    integer(int64) :: number
    select case (name)
    case ('array')
      call b%array(n(1), number)
      if (number /= b%arrays - 1) call fail('an array''s number is not the next')
    case ('loop')
      call b%open_loop(n(1), n(2), n(3), n(4))
    case ('statement')
      call b%statement(n(1), n(2))
    case ('read')
      call b%read(n(1), n(2))
    case ('constant')
      call b%constant(n(1))
    case ('operation')
      call b%operation(n(1))
    case ('end')
      call end_table
    case default
      call fail('a line that is no call')
    end select
  end subroutine

  subroutine call_32(m)
    integer(int32), intent(in) :: m(4)
    integer(int32) :: number
    select case (name)
    case ('array')
      call b%array(m(1), number)
      if (number /= b%arrays - 1) call fail('an array''s number is not the next')
    case ('loop')
      call b%open_loop(m(1), m(2), m(3), m(4))
    case ('statement')
      call b%statement(m(1), m(2))
    case ('read')
      call b%read(m(1), m(2))
    case ('constant')
      call b%constant(m(1))
    case ('operation')
      call b%operation(m(1))
    case ('end')
      call end_table
    case default
      call fail('a line that is no call')
    end select
  end subroutine

  subroutine end_table
    integer :: at
    call b%end()
    write (*, '(i0, 1x, i0, 1x, i0, " x")', advance='no') b%error, b%records, b%length
    do at = 1, b%length
      write (*, '(a)', advance='no') hexadecimal(iand(int(b%bytes(at)), 255))
    end do
    write (*, '(a)') ''
    call b%start()
  end subroutine

  pure function hexadecimal(byte) result(digits)
    integer, intent(in) :: byte
    character(2) :: digits
    character(16), parameter :: all_digits = '0123456789abcdef'
    digits = all_digits(byte / 16 + 1:byte / 16 + 1)//all_digits(mod(byte, 16) + 1:mod(byte, 16) + 1)
  end function

  subroutine fail(what)
    character(*), intent(in) :: what
    write (error_unit, '(a)') 'build: '//what
    stop 1
  end subroutine

end program
