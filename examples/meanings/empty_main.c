int main(void){return 0;}
/* The least program. */
