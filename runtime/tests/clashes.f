      subroutine model(n,m,ns,h,u,xb,s)
c     arrays of two dimensions, marked loops in a unit that a marked loop calls,
c     and names that made ones would have
      integer*8 n,m,ns,h(n,m),u(n,m),xb,s,adw1,flux(20),hb
      adw1=3
      hb=h(1,1)*adw1
c$ad binomial-ckp ns
      do 10 k=1,5
      call model_s1(n,m,h,u,flux)
      if (h(1,1).gt.100) then
      h(1,1)=h(1,1)-hb
      else if (h(1,1).lt.-100) then
      h(1,1)=-h(1,1)
      else
      call bound(n,m,h)
      end if
c$ad binomial-ckp 2
      do 10 l=1,3
      u(1,l)=u(1,l)*h(1,l)
     &  +min(u(2,1),max(h(2,2),abs(xb)))
   10 continue
      s=0
      do j=m,1,-1
      do i=1,n,2
      s=s+h(i,j)**2*u(i,j)-mod(h(i,j),7)
      end do
      end do
      return
      end
      subroutine model_s1(n,m,h,u,flux)
      integer*8 n,m,h(n,m),u(n,m),flux(20),t
      do i=2,n
      flux(i)=h(i,1)*u(i-1,1)
      call sq(flux(i),3*h(1,1))
      end do
      t=0
      do while (t.lt.flux(2).and.t.lt.4)
      t=t+1
      h(1,1)=h(1,1)+t*flux(2)
      end do
      call bound(n,m,u)
      end
      subroutine bound(n,m,a)
      integer*8 n,m,a(n,m)
      do 20 i=1,n
      if (a(i,m).ne.5) a(i,m)=a(i,1)
   20 continue
      end
      subroutine sq(a,b)
      integer*8 a,b
      a=a*a+b
      end
