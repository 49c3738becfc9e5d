//! Runs the programs of mini-moka's README and documentation, which are examples of this package.

mod threads {
    include!("../examples/mini_moka_threads.rs");

    #[test]
    fn it_runs() {
        main();
    }
}

mod one_thread {
    include!("../examples/mini_moka_one_thread.rs");

    #[test]
    fn it_runs() {
        main();
    }
}

mod expiry {
    include!("../examples/mini_moka_expiry.rs");

    #[test]
    fn it_runs() {
        main();
    }
}
