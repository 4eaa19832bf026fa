/* Comments, blanks, and includes, in any order and any number of times. */
#include <thread>
#include <iostream>
  #  include  <cstdint>
#include <mutex>
#include <cstdlib>
#include <iostream>
class Cell;struct Cell;class Cell{int v;public:int get(){return/**/v;}void set(int x){v=x;}};
void later ( int a , Cell * c ) ; int
sum(int a,int b){return a+b;}// a comment up to the line's end \ * /
Cell /* between */ cell // and here
;
int main ( )
{
	cell . set ( sum(1,/* two */2) ) ;	Cell*p=&cell;
	later(p -> get(), p);{{}}
	std :: cout<<cell.get()<<"\n";return 0;}
void later(int a,Cell*c){if(a==3){c->set(a*5);}else if(a){c->set(0);}else{c->set(1);}}
/**//***/
