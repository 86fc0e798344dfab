module graphqlvalidation

go 1.19
