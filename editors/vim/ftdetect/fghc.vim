" Flat GHC: the kind of .ghc files. It is called fghc, since ghc means Haskell to many.
autocmd BufRead,BufNewFile *.ghc setfiletype fghc
