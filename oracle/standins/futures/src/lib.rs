//! Stand-in for futures. Whatever is polled here is ready.
pub mod future {
    use std::{
        future::Future,
        pin::Pin,
        sync::{Arc, Mutex},
        task::{Context, Poll},
    };
    pub type BoxFuture<'a, T> = Pin<Box<dyn Future<Output = T> + Send + 'a>>;
    /// One after the other, as neither waits.
    pub async fn try_join<A, B, E>(
        a: impl Future<Output = Result<A, E>>,
        b: impl Future<Output = Result<B, E>>,
    ) -> Result<(A, B), E> {
        let a = a.await?;
        Ok((a, b.await?))
    }
    enum State<F: Future> {
        Waiting(Pin<Box<F>>),
        Done(F::Output),
    }
    pub struct Shared<F: Future>(Arc<Mutex<State<F>>>);
    impl<F: Future> Clone for Shared<F> {
        fn clone(&self) -> Self {
            Self(self.0.clone())
        }
    }
    impl<F: Future> Future for Shared<F>
    where
        F::Output: Clone,
    {
        type Output = F::Output;
        fn poll(self: Pin<&mut Self>, cx: &mut Context<'_>) -> Poll<F::Output> {
            let mut s = self.0.lock().unwrap();
            if let State::Waiting(f) = &mut *s {
                match f.as_mut().poll(cx) {
                    Poll::Ready(v) => *s = State::Done(v),
                    Poll::Pending => return Poll::Pending,
                }
            }
            let State::Done(v) = &*s else { unreachable!() };
            Poll::Ready(v.clone())
        }
    }
    pub trait FutureExt: Future {
        fn boxed<'a>(self) -> BoxFuture<'a, Self::Output>
        where
            Self: Sized + Send + 'a,
        {
            Box::pin(self)
        }
        fn shared(self) -> Shared<Self>
        where
            Self: Sized,
            Self::Output: Clone,
        {
            Shared(Arc::new(Mutex::new(State::Waiting(Box::pin(self)))))
        }
        fn now_or_never(self) -> Option<Self::Output>
        where
            Self: Sized,
        {
            match std::pin::pin!(self).poll(&mut Context::from_waker(std::task::Waker::noop())) {
                Poll::Ready(v) => Some(v),
                Poll::Pending => None,
            }
        }
    }
    impl<F: Future> FutureExt for F {}
}
pub use future::FutureExt;
