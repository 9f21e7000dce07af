int	main ( void )
{ putchar ( 79 ) ;
  putchar ( 75 ) ; putchar(10);return
7;}
