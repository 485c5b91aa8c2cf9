! Plans the loop table of a file for a number of processors, then runs it in an odd order on a memory in which every element is its own
! index within its array, beside the plain run:
!
!     gfortran vempaldi.f90 example.f90 -Lbuild -lvempaldi -o example && ./example example.table 2
!
! Without a number it is two processors. A second number is how many iterations a line has, 1 where there is none. The numbers behind it are
! a plan by hand, shift and peel of each loop in table order. The exit status is 0 where the memories have the same bits, 1 where a call is
! refused, 2 where the arguments or the file are no good.
program example
  use, intrinsic :: iso_c_binding
  use, intrinsic :: iso_fortran_env, only: error_unit
  use vempaldi
  implicit none

  integer(c_int8_t), allocatable :: table(:)
  integer(c_int32_t), allocatable :: arrays(:, :), loops(:, :)
  integer(c_int32_t) :: processors, line, threshold, elements
  ! Where no plan is given it is not allocated, and so absent in every call.
  integer(c_int32_t), allocatable :: plan(:, :)
  integer(c_int64_t) :: answer(4)
  character(:), allocatable :: text

  if (command_argument_count() < 1) call stop_for_caller('usage: example FILE [P [W [SHIFT PEEL]..]]')
  processors = 2
  line = 1
  if (command_argument_count() >= 2) processors = number_in('P', argument(2))
  if (command_argument_count() >= 3) line = number_in('W', argument(3))
  if (command_argument_count() >= 4) call read_plan()
  call read_table(argument(1))

  elements = 0
  call vempaldi_facts(table, arrays, loops, elements, answer)
  call stop_if_refused('facts')
  call vempaldi_listing(table, processors, text, answer, line=line, plan=plan)
  call stop_if_refused('listing')
  write (*, '(a)', advance='no') text
  threshold = 0
  call vempaldi_check_plan(table, processors, threshold, answer, line=line, plan=plan)
  call stop_if_refused('check plan')
  print '(a,i0)', 'threshold ', threshold
  call run_both()

contains

  function argument(number) result(word)
    integer, intent(in) :: number
    character(:), allocatable :: word
    integer :: length
    call get_command_argument(number, length=length)
    allocate (character(length) :: word)
    call get_command_argument(number, word)
  end function

  subroutine stop_for_caller(message)
    character(*), intent(in) :: message
    write (error_unit, '(a)') message
    stop 2, quiet=.true.
  end subroutine

  ! The library takes any number of 32 bits, unsigned, and refuses those that are no P or W.
  function number_in(name, word) result(number)
    character(*), intent(in) :: name, word
    integer(c_int32_t) :: number
    integer(c_int64_t), parameter :: most = 4294967295_c_int64_t
    integer(c_int64_t) :: value
    integer :: at
    value = 0
    if (len(word) == 0 .or. verify(word, '0123456789') /= 0) value = most + 1
    do at = 1, len(word)
      if (value <= most) value = 10 * value + (iachar(word(at:at)) - iachar('0'))
    end do
    if (value > most) call stop_for_caller('example: '//name//" is a number from 0 to 4294967295, not '"//word//"'")
    ! The upper half has the bits of the negative numbers here.
    if (value > huge(number)) value = value - most - 1
    number = int(value, c_int32_t)
  end function

  ! A number too many makes no pairs, and the library refuses such a plan.
  subroutine read_plan()
    integer(c_int32_t), allocatable :: numbers(:)
    integer :: at
    allocate (numbers(command_argument_count() - 3))
    do at = 1, size(numbers)
      numbers(at) = number_in(trim(merge('a shift', 'a peel ', mod(at, 2) == 1)), argument(3 + at))
    end do
    if (mod(size(numbers), 2) == 0) then
      plan = reshape(numbers, [2, size(numbers) / 2])
    else
      plan = reshape(numbers, [1, size(numbers)])
    end if
  end subroutine

  ! No byte past those that decide changes an answer, so the file may be of any length.
  subroutine read_table(name)
    character(*), intent(in) :: name
    integer(c_int8_t) :: bytes(vempaldi_deciding_bytes)
    integer :: unit, length, status
    open (newunit=unit, file=name, access='stream', form='unformatted', status='old', action='read', iostat=status)
    if (status /= 0) call stop_for_caller("example: cannot read '"//name//"'")
    do length = 0, size(bytes) - 1
      read (unit, iostat=status) bytes(length + 1)
      if (status /= 0) exit
    end do
    if (status /= 0 .and. .not. is_iostat_end(status)) call stop_for_caller("example: cannot read '"//name//"'")
    close (unit)
    table = bytes(1:length)
  end subroutine

  subroutine stop_if_refused(what)
    character(*), intent(in) :: what
    if (answer(1) == vempaldi_accepted) return
    write (error_unit, '(2a,i0,3a,i0)', advance='no') what, ': refused ', answer(1), ' ', vempaldi_word(answer(1)), &
      ', place ', answer(2)
    if (answer(1) == vempaldi_serial) write (error_unit, '(2(a,i0))', advance='no') ', references ', answer(3), ' and ', answer(4)
    if (answer(1) == vempaldi_unmet) write (error_unit, '(a,i0)', advance='no') ', loop ', answer(3)
    write (error_unit, '(a)') ''
    stop 1, quiet=.true.
  end subroutine

  ! How many iterations the processors have in their lists.
  function listed() result(iterations)
    integer(c_int32_t), allocatable :: fused(:, :), peeled(:, :)
    integer :: iterations, b
    iterations = 0
    do b = 0, processors - 1
      call vempaldi_fused_list(table, processors, b, fused, answer, line=line, plan=plan)
      call stop_if_refused('fused list')
      call vempaldi_peeled_list(table, processors, b, peeled, answer, line=line, plan=plan)
      call stop_if_refused('peeled list')
      iterations = iterations + size(fused, 2) + size(peeled, 2)
    end do
  end function

  subroutine run_both()
    real(c_double), allocatable :: plain(:), other(:)
    integer(c_int8_t), allocatable :: order(:)
    integer(c_int64_t) :: idle
    integer :: q, i
    allocate (plain(elements))
    do q = 1, size(arrays, 2)
      plain(arrays(1, q) + 1:arrays(1, q) + arrays(2, q)) = [(real(i, c_double), i = 0, arrays(2, q) - 1)]
    end do
    other = plain
    call vempaldi_plain_run(table, plain, answer)
    call stop_if_refused('plain run')
    ! The last processor is named once for every iteration that there is. It idles once it has performed its own.
    allocate (order(listed()), source=int(processors - 1, c_int8_t))
    call vempaldi_run(table, processors, order, other, idle, answer, line=line, plan=plan)
    call stop_if_refused('run')
    print '(a,i0)', 'idle ', idle
    write (*, '(i0,a,i0,a)', advance='no') size(order), ' iterations on ', elements, ' elements, '
    if (any(transfer(plain, [0_c_int64_t]) /= transfer(other, [0_c_int64_t]))) then
      print '(a)', 'NOT the bits of the plain run'
      stop 1, quiet=.true.
    end if
    print '(a)', 'same bits as the plain run'
    q = size(arrays, 2)
    call print_first(other(arrays(1, q) + 1:arrays(1, q) + min(12, arrays(2, q))))
  end subroutine

  ! The last array's first numbers.
  subroutine print_first(numbers)
    real(c_double), intent(in) :: numbers(:)
    character(40) :: word
    integer :: i
    write (*, '(a)', advance='no') 'last array:'
    do i = 1, size(numbers)
      write (word, '(f40.3)') numbers(i)
      write (*, '(2a)', advance='no') ' ', trim(adjustl(word))
    end do
    print '(a)', ''
  end subroutine

end program
